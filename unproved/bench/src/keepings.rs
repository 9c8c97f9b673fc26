//! What it costs to keep a process in its two files, by the length of its core's table.
//!
//! It formats a device of one tree in memory, whose table has an entry for each block, and keeps its process a number of times,
//! without sync. No command is at work and no STORE waits, so nearly all of the text is its table, and of that nothing changes.

use oram_bucket::PlainSeal;
use oram_core::{Core, TableChanges};
use oram_geometry::Device;
use oram_host::Server;
use oram_keeper::{PairKeeper, make_kept, open_kept};
use oram_redo::{Syncs, SystemPair};
use oram_rounds::{KeptParts, LinkRecords, OneByOne, RoundLink, keep, record_len};
use oram_session::Direct;
use std::time::Instant;
use std::{fs, io};

/// A title of files that only a measurement uses.
const TITLE: [u8; 65] = [4; 65];

fn failed() -> io::Error {
    io::ErrorKind::Other.into()
}

/// Makes files at a path in which nothing is kept yet, and returns a keeper that uses them.
pub(crate) fn keeper_at(
    rt: &HostRuntime,
    path: &str,
    syncs: Syncs,
) -> io::Result<PairKeeper<SystemPair>> {
    let nothing = KeptParts {
        before: &[],
        table: &[],
        changes: TableChanges::Any,
        after: &[],
        records: LinkRecords::none(),
    };
    if make_kept(rt, rt.alloc(), path, &TITLE, &nothing).is_err() {
        return Err(failed());
    }
    match open_kept(rt, rt.alloc(), path, TITLE.len(), syncs) {
        Ok((keeper, _)) => Ok(keeper),
        Err(_) => Err(failed()),
    }
}

/// Removes the two files at a path.
pub(crate) fn remove(rt: &HostRuntime, path: &str) -> io::Result<()> {
    fs::remove_file(rt, path)?;
    fs::remove_file(rt, format!(in rt.alloc(); "{path}-log")?)
}

/// Returns how many microseconds a keeping takes of a process with a table of this many entries, in files at a path, after a first one
/// that writes all of it.
fn time_of(rt: &HostRuntime, path: &str, entries: u64, times: u64) -> io::Result<u128> {
    let alloc = rt.alloc();
    let Ok(device) = Device::packed(entries, 16, 4, entries, 1_000, 5) else {
        return Err(failed());
    };
    let mut server = Server::new(alloc);
    let Ok(mut core) = Core::format(alloc, device.copy(), PlainSeal, &mut server) else {
        return Err(failed());
    };
    let len = record_len(&core);
    let inner = OneByOne {
        link: Direct::new(alloc, server),
    };
    let mut link = RoundLink::new(alloc, inner, device, len);
    let mut keeper = keeper_at(rt, path, Syncs::LeftOut)?;
    if keep(alloc, &mut core, &mut link, &mut keeper).is_err() {
        return Err(failed());
    }
    let start = Instant::now(rt)?;
    for _ in 0..times {
        if keep(alloc, &mut core, &mut link, &mut keeper).is_err() {
            return Err(failed());
        }
    }
    Ok(start.elapsed(rt)?.as_micros() / u128::from(times.max(1)))
}

/// Measures keepings of a table of this many KiB in files at the path `name`, which must not exist yet.
pub(crate) fn measure(rt: &HostRuntime, name: &str, kib: &str, times: &str) -> io::Result<()> {
    let (Ok(kib), Ok(times)) = (kib.parse::<u64>(), times.parse::<u64>()) else {
        return Err(failed());
    };
    let each = time_of(rt, name, kib.saturating_mul(256), times)?;
    println!(rt; "a table of {kib} KiB: {each} us a keeping, of {times}")?;
    remove(rt, name)
}
