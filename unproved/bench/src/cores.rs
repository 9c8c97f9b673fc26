//! How long an access takes in the core and the server, compared with hashing the same bytes twice.
//!
//! It measures a single tree of large blocks, plain and sealed; two trees of as many blocks as a disk of 256 MiB has;
//! and three trees of small blocks: 2,000 accesses each. It also measures formatting a record, compared with hashing it
//! once; writing the state file at the end, and that of a large core, compared with hashing as many bytes once; and the
//! accesses as a session, compared with the same accesses in the core and the server alone.
mod sessions;

use oram_bucket::{Block, ChaChaSeal, PlainSeal, Sealer};
use oram_bytes::{Bytes, Words};
use oram_core::{Command, Core, Event, Parts, TreeParts};
use oram_geometry::Device;
use oram_hash::node_digest;
use oram_host::Server;
use oram_state::encode_state;
use rand_chacha::ChaCha20Rng;
use rand_core::{Rng, SeedableRng};
use sha2::{Digest, Sha256};
use std::alloc::{AllocError, Global};
use std::io;
use std::time::{Duration, Instant};

const ACCESSES: u32 = 2_000;

/// More messages than an access has: a fetch and a store for each of at most 14 trees.
const MOST_MESSAGES: u32 = 29;

const FETCH: u8 = 1;

/// How long each part took in all accesses.
#[derive(Clone, Copy)]
struct Times {
    core: Duration,
    host: Duration,
    hashing: Duration,
}

/// How many times a record is hashed to find how long one hashing takes.
const HASHINGS: u32 = 1_000;

/// Returns a read or a write of some block, with words of its own.
fn some_access(
    alloc: Global,
    device: &Device,
    random: &mut ChaCha20Rng,
) -> Result<Event, AllocError> {
    let address = random.next_u32() % device.blocks_in(0).max(1);
    let command = if random.next_u32() % 2 == 0 {
        Command::Read(address)
    } else {
        Command::Write(
            address,
            Bytes::from_vec(vec![in alloc; 7; device.block_bytes()]?),
        )
    };
    let mut words = Vec::new(alloc);
    for _ in 0..2 * usize::from(device.trees()) {
        words.push(random.next_u64())?;
    }
    Ok(Event::Submit {
        session: 0,
        command,
        words: Words::from_vec(words),
    })
}

/// Hashes each record twice with SHA-256.
fn hash_twice(records: &[u8], record_len: usize) -> u8 {
    let once = |mixed, record: &[u8]| mixed ^ node_digest(record)[0];
    let first = records.chunks(record_len.max(1)).fold(0, once);
    records.chunks(record_len.max(1)).fold(first, once)
}

/// Makes a step, and returns the message that it sends, if any.
fn step<S: Sealer>(
    rt: &(impl Alloc<A = Global> + std::rt::Clock),
    core: &mut Core<S>,
    event: &Event,
    times: &mut Times,
) -> io::Result<Option<Bytes>> {
    let start = Instant::now(rt)?;
    let mut reaction = core.step(rt.alloc(), event)?;
    times.core = times.core.saturating_add(start.elapsed(rt)?);
    Ok(reaction.sends.pop())
}

/// Returns the server's answer to a message. It also hashes the records of a path twice, and times that separately.
fn serve(
    rt: &(impl Alloc<A = Global> + std::rt::Clock),
    server: &mut Server,
    message: &[u8],
    record_len: usize,
    times: &mut Times,
) -> io::Result<Event> {
    let start = Instant::now(rt)?;
    let answer = server.answer(rt.alloc(), message)?;
    times.host = times.host.saturating_add(start.elapsed(rt)?);
    if message.first() == Some(&FETCH) {
        let records = answer.get(1..).unwrap_or_default();
        let start = Instant::now(rt)?;
        let _ = hash_twice(records, record_len);
        times.hashing = times.hashing.saturating_add(start.elapsed(rt)?);
    }
    Ok(Event::Answer(Bytes::from_vec(answer)))
}

/// Submits a command, and lets the server answer until nothing is outstanding.
fn access<S: Sealer>(
    rt: &(impl Alloc<A = Global> + std::rt::Clock),
    core: &mut Core<S>,
    server: &mut Server,
    command: &Event,
    record_len: usize,
    times: &mut Times,
) -> io::Result<()> {
    let mut outstanding = step(rt, core, command, times)?;
    for _ in 0..MOST_MESSAGES {
        let Some(message) = outstanding else {
            return Ok(());
        };
        let answer = serve(rt, server, message.as_slice(), record_len, times)?;
        outstanding = step(rt, core, &answer, times)?;
    }
    Ok(())
}

/// Returns the number of records of a device in all its trees.
fn records_of(device: &Device) -> u64 {
    let mut records: u64 = 0;
    for tree in 0..device.trees() {
        records = records.saturating_add((2u64 << device.depth(tree)) - 1);
    }
    records
}

/// Returns how long one hashing of a record of this length takes.
fn time_of_hashing(rt: &HostRuntime, record_len: usize) -> io::Result<Duration> {
    let record = vec![in rt.alloc(); 7u8; record_len]?;
    let start = Instant::now(rt)?;
    let _ = (0..HASHINGS).fold(0, |mixed, _| mixed ^ node_digest(&record)[0]);
    Ok(start.elapsed(rt)? / HASHINGS)
}

/// Prints how long formatting one of `records` records took, compared with hashing it once.
fn report_formatting(
    rt: &HostRuntime,
    name: &str,
    formatting: Duration,
    records: u64,
    record_len: usize,
) -> io::Result<()> {
    let hashing = time_of_hashing(rt, record_len)?;
    println!(rt; "{name}")?;
    println!(rt;
        "  formatting a record: {} ns, one hashing of it: {} ns",
        formatting.as_nanos() / u128::from(records.max(1)),
        hashing.as_nanos()
    )
}

/// Makes accesses to a device, and prints how long they took.
fn measure_accesses<S: Sealer>(
    rt: &HostRuntime,
    core: &mut Core<S>,
    server: &mut Server,
) -> io::Result<()> {
    let record_len = core.device().record_len(core.overhead());
    let mut times = Times {
        core: Duration::ZERO,
        host: Duration::ZERO,
        hashing: Duration::ZERO,
    };
    let mut random = ChaCha20Rng::from_seed([1; 32]);
    for _ in 0..ACCESSES {
        let command = some_access(rt.alloc(), core.device(), &mut random)?;
        access(rt, core, server, &command, record_len, &mut times)?;
    }
    report(rt, core, &times)?;
    report_file(rt, core)
}

/// Formats a device, makes accesses to it, and prints how long both took.
fn measure<S: Sealer>(rt: &HostRuntime, name: &str, device: Device, sealer: S) -> io::Result<()> {
    let record_len = device.record_len(sealer.overhead());
    let records = records_of(&device);
    let mut server = Server::new(rt.alloc());
    let start = Instant::now(rt)?;
    let Ok(mut core) = Core::format(rt.alloc(), device, sealer, &mut server) else {
        return Err(AllocError.into());
    };
    report_formatting(rt, name, start.elapsed(rt)?, records, record_len)?;
    measure_accesses(rt, &mut core, &mut server)
}

/// Returns a part of a whole, in hundredths.
fn hundredths(part: Duration, whole: Duration) -> u128 {
    part.as_micros() * 100 / whole.as_micros().max(1)
}

/// Prints how long the accesses took, on average, and how many blocks are in no bucket at the end.
fn report<S: Sealer>(rt: &HostRuntime, core: &Core<S>, times: &Times) -> io::Result<()> {
    let micros = |time: Duration| time.as_micros() / u128::from(ACCESSES);
    let whole = times.core.saturating_add(times.host);
    let ratio = hundredths(times.core, times.hashing);
    println!(rt;
        "  an access: {} us, of which the server {} %",
        micros(whole),
        hundredths(times.host, whole)
    )?;
    println!(rt; "  the core alone: {} us", micros(times.core))?;
    println!(rt;
        "  two hashings of the same bytes: {} us",
        micros(times.hashing)
    )?;
    println!(rt;
        "  the core is {}.{:02} times these",
        ratio / 100,
        ratio % 100
    )?;
    for tree in 0..core.device().trees() {
        println!(rt;
            "  stash of tree {tree} at the end: {}",
            core.stash_len(tree)
        )?;
    }
    Ok(())
}

/// Prints how long writing the core's state file takes, and how long hashing as many bytes once takes.
fn report_file<S: Sealer>(rt: &HostRuntime, core: &Core<S>) -> io::Result<()> {
    let start = Instant::now(rt)?;
    let file = encode_state(rt.alloc(), core)?;
    let writing = start.elapsed(rt)?;
    let start = Instant::now(rt)?;
    let _ = Sha256::digest(&file);
    let hashing = start.elapsed(rt)?;
    println!(rt;
        "  a state file of {} bytes: {} us, one hashing of it: {} us",
        file.len(),
        writing.as_micros(),
        hashing.as_micros()
    )
}

/// Returns the parts of a new core for a device of 4 GiB whose client keeps the whole map, with `blocks` blocks in its
/// stash.
fn large_parts(alloc: Global, device: Device, blocks: u32) -> Result<Parts, AllocError> {
    let mut stash = Vec::new(alloc);
    for address in 0..blocks {
        stash.push(Block {
            address,
            leaf: 0,
            content: vec![in alloc; 0; 4_096]?,
        })?;
    }
    let mut trees = Vec::new(alloc);
    trees.push(TreeParts {
        root: [0; 32],
        stash,
    })?;
    Ok(Parts {
        device,
        tickets: 0,
        nonce: (1 << 21) - 1,
        table: vec![in alloc; 0; 1 << 20]?,
        trees,
        failure: None,
        waiting: Vec::new(alloc),
        entry_number: 0,
        held_entry: 0,
        held_data: Bytes::from_vec(Vec::new(alloc)),
        message: Bytes::from_vec(Vec::new(alloc)),
        stalled: false,
    })
}

/// Prints how long writing a large core's state file takes.
fn report_large_file(rt: &HostRuntime) -> io::Result<()> {
    let Ok(device) = Device::new(1 << 20, 4_096, 4, 1 << 20, 1 << 40) else {
        return Ok(());
    };
    let parts = large_parts(rt.alloc(), device, 100)?;
    let Ok(core) = Core::from_parts(rt.alloc(), PlainSeal, parts) else {
        return println!(rt; "a large core could not be made");
    };
    println!(rt; "a table of 1,048,576 entries, 100 blocks of 4,096 bytes in the stash")?;
    report_file(rt, &core)
}

/// Measures each device, and prints the times.
pub(crate) fn run(rt: &HostRuntime) -> io::Result<()> {
    let sealer = ChaChaSeal { key: [7; 32] };
    if let Ok(device) = Device::new(4_096, 4_096, 4, 4_096, 1 << 40) {
        measure(
            rt,
            "one tree of depth 12, blocks of 4,096 bytes",
            device,
            PlainSeal,
        )?;
    }
    if let Ok(device) = Device::new(4_096, 4_096, 4, 4_096, 1 << 40) {
        measure(rt, "the same, sealed by ChaCha20", device, sealer)?;
    }
    if let Ok(device) = Device::new(65_536, 4_096, 4, 1_024, 1 << 40) {
        measure(
            rt,
            "two trees, 65,536 blocks of 4,096 bytes, sealed by ChaCha20",
            device,
            sealer,
        )?;
    }
    if let Ok(device) = Device::new(64, 16, 4, 4, 1 << 40) {
        measure(rt, "three trees, blocks of 16 bytes", device, PlainSeal)?;
    }
    if let Ok(device) = Device::new(4_096, 4_096, 4, 4_096, 1 << 40) {
        sessions::measure_session(
            rt,
            "a session on one tree of depth 12, blocks of 4,096 bytes",
            device,
        )?;
    }
    report_large_file(rt)
}
