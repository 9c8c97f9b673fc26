//! Calls of the system: new files, and how much memory the process had.

use oram_store::{BucketFile, StoreFault, make_store, open_store};
use std::rt::Files;
use std::{fs, io};

/// Returns the store of a new file. If the file exists already, leaves it alone and fails.
pub(crate) fn new_store(rt: &HostRuntime, name: &str) -> io::Result<BucketFile> {
    reported(rt, name, make_store(rt, rt.alloc(), name))
}

/// Opens the store of a file that is there.
pub(crate) fn opened(rt: &HostRuntime, name: &str) -> io::Result<BucketFile> {
    reported(rt, name, open_store(rt, rt.alloc(), name))
}

/// Returns a store, or prints why there is none.
fn reported(
    rt: &impl Print,
    name: &str,
    found: Result<BucketFile, StoreFault>,
) -> io::Result<BucketFile> {
    match found {
        Ok(store) => Ok(store),
        Err(fault) => {
            println!(rt; "{name}: {fault}")?;
            Err(io::ErrorKind::Other.into())
        }
    }
}

/// Closes a store, so that all of it is in its file. Every use of a store ends with this.
pub(crate) fn close(mut store: BucketFile) -> io::Result<()> {
    match store.empty_log() {
        Ok(()) => Ok(()),
        Err(_) => Err(io::ErrorKind::Other.into()),
    }
}

/// Prints the line of the process's status that says how much memory it used at most.
pub(crate) fn report_memory(rt: &(impl Files + AllocGlobal + Print)) -> io::Result<()> {
    let status = fs::read_to_string(rt, "/proc/self/status")?;
    for line in status.as_str().lines() {
        if line.starts_with("VmHWM:") {
            rt.println(line)?;
        }
    }
    Ok(())
}
