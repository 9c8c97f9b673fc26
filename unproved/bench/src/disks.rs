//! What it costs a disk to keep its state: requests of 4 KiB with each state kept in memory, kept in its two files, and with
//! these synced.
//!
//! It formats a disk of 16 MiB in memory, with two trees of blocks of 4,096 bytes, sealed. In one run it makes the same
//! reads and writes as rounds of one command and as NBD requests, with each state kept in memory, and as NBD requests
//! with each state kept in two files in a folder, without sync and with it. The host is a server in memory, and there is no
//! socket in between, so it measures the client's own work.

mod requests;

use crate::keepings::{keeper_at, remove};
use oram_bucket::ChaChaSeal;
use oram_core::{Command, Core, Note};
use oram_geometry::Device;
use oram_host::Server;
use oram_nbd::{Arrived, ClientWatch, transmit};
use oram_redo::Syncs;
use oram_rounds::{KeepError, Keeper, KeptParts, OneByOne, RoundLink, perform, record_len};
use oram_session::{ChaChaTape, Direct, has_no_work, submit};
use oram_volume::Volume;
use requests::{Access, BLOCK_BYTES, BLOCKS, REQUESTS, said, some_accesses};
use std::alloc::{AllocError, Global};
use std::io;
use std::io::Read;
use std::rt::Clock;
use std::time::{Duration, Instant};

/// A client that stays for as long as it is served.
#[derive(Drop)]
struct Stays;

impl ClientWatch for Stays {
    fn agreed(&mut self) {}

    fn goes_on(&mut self) -> bool {
        true
    }
}

/// A keeper that keeps the newest file in memory.
#[derive(Drop)]
struct MemoryKeeper {
    alloc: Global,
    newest: Vec<u8>,
    /// The table that was kept last.
    table: Vec<u32>,
}

impl MemoryKeeper {
    /// Makes a keeper that has no file yet.
    fn new(alloc: Global) -> MemoryKeeper {
        MemoryKeeper {
            alloc,
            newest: Vec::new(alloc),
            table: Vec::new(alloc),
        }
    }
}

impl Keeper for MemoryKeeper {
    ghost use Rattle.std.specs.Prelude.{◌≡◌, []};

    ghost reads_back = { λ k bytes. bytes ≡ k.newest.items };

    ghost kept_table = { λ k. k.table.items };

    ghost kept_records = { λ k. [] };

    fn keep(&mut self, text: &KeptParts<'_>) -> Result<(), KeepError> {
        match (joined(self.alloc, text), text.table.to_vec(self.alloc)) {
            (Ok(newest), Ok(table)) => {
                self.newest = newest;
                self.table = table;
                Ok(())
            }
            _ => Err(KeepError),
        }
    }
}

/// Returns a text as one list of bytes.
fn joined(alloc: Global, text: &KeptParts<'_>) -> Result<Vec<u8>, AllocError> {
    let mut bytes = Vec::new(alloc);
    bytes.extend_from_slice(text.before)?;
    for entry in text.table {
        bytes.extend_from_slice(&entry.to_be_bytes())?;
    }
    bytes.extend_from_slice(text.after)?;
    bytes.extend_from_slice(text.records.bytes)?;
    Ok(bytes)
}

/// Requests that arrive one at a time, so that each of them is carried out alone.
#[derive(Drop)]
struct OneAtATime<'a> {
    unread: &'a [u8],
}

impl Read for OneAtATime<'_> {
    fn read(&mut self, buf: &mut [u8]) -> io::Result<usize> {
        self.unread.read(buf)
    }
}

impl Arrived for OneAtATime<'_> {
    fn arrived(&self) -> &[u8] {
        &[]
    }
}

type KeptVolume<K> = Volume<ChaChaSeal, OneByOne<Direct>, K, ChaChaTape>;

fn failed() -> io::Error {
    io::ErrorKind::Other.into()
}

/// Returns a new disk, whose table has room for 1,024 entries.
fn formatted<K: Keeper + Drop>(alloc: Global, keeper: K) -> io::Result<KeptVolume<K>> {
    let blocks = u64::from(BLOCKS);
    let Ok(device) = Device::new(blocks, u64::from(BLOCK_BYTES), 4, 1_024, 1 << 40) else {
        return Err(failed());
    };
    let trees = device.trees();
    let mut server = Server::new(alloc);
    let sealer = ChaChaSeal { key: [2; 32] };
    let Ok(core) = Core::format(alloc, device, sealer, &mut server) else {
        return Err(failed());
    };
    let device = core.device().copy();
    let record_len = record_len(&core);
    let link = OneByOne {
        link: Direct::new(alloc, server),
    };
    Ok(Volume {
        core,
        link: RoundLink::new(alloc, link, device, record_len),
        keeper,
        tape: ChaChaTape {
            key: [3; 32],
            trees,
        },
    })
}

/// Carries out a command in a round of its own.
fn carry_out<K: Keeper + Drop>(
    alloc: Global,
    disk: &mut KeptVolume<K>,
    command: Command,
) -> io::Result<()> {
    if !has_no_work(&disk.core) {
        return Err(failed());
    }
    let reaction = submit(alloc, &mut disk.core, &mut disk.tape, 0, command)?;
    match reaction.note {
        Note::Accepted(_) => {
            let replies = perform(
                alloc,
                &mut disk.core,
                &mut disk.link,
                &mut disk.keeper,
                reaction,
            );
            if replies.is_ok() {
                Ok(())
            } else {
                Err(failed())
            }
        }
        _ => Err(failed()),
    }
}

/// Returns how long the accesses take on a disk as rounds of one command.
fn time_of_rounds<K: Keeper + Drop>(
    rt: &(impl Alloc<A = Global> + Clock),
    disk: &mut KeptVolume<K>,
    accesses: &[Access],
) -> io::Result<Duration> {
    let alloc = rt.alloc();
    let start = Instant::now(rt)?;
    for access in accesses {
        carry_out(alloc, disk, access.command(alloc)?)?;
    }
    start.elapsed(rt)
}

/// Returns how long the accesses take as rounds of one command, on a new disk whose state is kept in memory.
fn by_rounds(rt: &(impl Alloc<A = Global> + Clock), accesses: &[Access]) -> io::Result<Duration> {
    let alloc = rt.alloc();
    let mut disk = formatted(alloc, MemoryKeeper::new(alloc))?;
    time_of_rounds(rt, &mut disk, accesses)
}

/// Returns how long a disk takes for the NBD requests in `said`.
fn time_of_requests<K: Keeper + Drop>(
    rt: &(impl Alloc<A = Global> + Clock),
    disk: &mut KeptVolume<K>,
    said: &[u8],
) -> io::Result<Duration> {
    let alloc = rt.alloc();
    let mut reader = OneAtATime { unread: said };
    let mut replies = Vec::new(alloc);
    let start = Instant::now(rt)?;
    let served = transmit(alloc, &mut reader, &mut replies, disk, &mut Stays);
    let taken = start.elapsed(rt)?;
    if served == Ok(u64::from(REQUESTS)) {
        Ok(taken)
    } else {
        Err(failed())
    }
}

/// Returns how long the NBD requests in `said` take on a new disk with this keeper.
fn by_requests<K: Keeper + Drop>(
    rt: &(impl Alloc<A = Global> + Clock),
    keeper: K,
    said: &[u8],
) -> io::Result<Duration> {
    let mut disk = formatted(rt.alloc(), keeper)?;
    time_of_requests(rt, &mut disk, said)
}

/// Returns how long the NBD requests in `said` take on a new disk whose state is kept in files at the path `name`.
fn by_files(rt: &HostRuntime, name: &str, syncs: Syncs, said: &[u8]) -> io::Result<Duration> {
    let taken = by_requests(rt, keeper_at(rt, name, syncs)?, said)?;
    remove(rt, name)?;
    Ok(taken)
}

/// Prints the time of a request, and how many times that of a round it is.
fn report(rt: &impl Print, name: &str, time: Duration, round: Duration) -> io::Result<()> {
    let each = time.as_micros() / u128::from(REQUESTS);
    let ratio = time.as_micros().saturating_mul(100) / round.as_micros().max(1);
    println!(rt;
        "  {name}: {each} us a request, {}.{:02} times a round",
        ratio / 100,
        ratio % 100
    )
}

/// Measures the accesses as rounds, and the requests in `said`, which are the same, with each keeper.
fn measure_each(rt: &HostRuntime, name: &str, accesses: &[Access], said: &[u8]) -> io::Result<()> {
    let round = by_rounds(rt, accesses)?;
    report(rt, "rounds of one command, kept in memory", round, round)?;
    let in_memory = by_requests(rt, MemoryKeeper::new(rt.alloc()), said)?;
    report(rt, "requests, kept in memory", in_memory, round)?;
    for (line, syncs) in [
        ("requests, kept without sync", Syncs::LeftOut),
        ("requests, kept and synced", Syncs::Made),
    ] {
        report(rt, line, by_files(rt, name, syncs, said)?, round)?;
    }
    Ok(())
}

/// Makes all of these measurements, with files in this folder.
pub(crate) fn measure(rt: &HostRuntime, folder: &str) -> io::Result<()> {
    let alloc = rt.alloc();
    println!(rt;
        "{REQUESTS} requests of {BLOCK_BYTES} bytes, reads and writes, of a disk of {BLOCKS} blocks"
    )?;
    let accesses = some_accesses(alloc)?;
    let said = said(alloc, &accesses)?;
    let name = format!(in alloc; "{folder}/bench.state")?;
    measure_each(rt, name.as_str(), &accesses, &said)
}
