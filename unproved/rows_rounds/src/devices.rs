//! Devices that are formatted on a host in memory.
//!
//! `rows_sessions` has [`standing`] too. The crate `rows` can't have it for both, since it doesn't depend on the core:
//! otherwise each row program could be proved only after the core.

use crate::kept_files::text_of;
use oram_bucket::PlainSeal;
use oram_core::Core;
use oram_geometry::Device;
use oram_host::Server;
use oram_session::{Direct, format_device};
use rows::{RowFault, RowWords, device_in};
use std::alloc::Global;

/// Formats a device over a link, and returns the file from which its first process begins.
fn formatted_over(alloc: Global, device: Device, link: &mut Direct) -> Result<Vec<u8>, RowFault> {
    match format_device(alloc, device, PlainSeal, link) {
        Ok(core) => Ok(text_of(alloc, &[], &[], &core)?.bytes),
        Err(_) => Err(RowFault::OutOfMemory),
    }
}

/// Formats the device of the next words on a new server. Returns the server, and the file from which the first process
/// begins.
pub(crate) fn new_device(
    alloc: Global,
    words: &mut RowWords,
) -> Result<(Box<Server>, Vec<u8>), RowFault> {
    let mut link = Direct::new(alloc, Server::new(alloc));
    let file = formatted_over(alloc, device_in(words)?, &mut link)?;
    Ok((Box::new(alloc, link.into_server())?, file))
}

/// Returns whether a core is idle, failed or at work.
pub(crate) fn standing(core: &Core<PlainSeal>) -> &'static str {
    if core.failure().is_some() {
        "failed"
    } else if core.is_idle() {
        "idle"
    } else {
        "at work"
    }
}
