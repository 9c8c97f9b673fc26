//! How connections end.

use oram_nbd::NbdFault;
use rows::{Page, RowFault};
use std::alloc::Global;

/// The beginning of a reply that refuses a request because memory ran out.
const NO_MEMORY: [u8; 8] = [0x67, 0x44, 0x66, 0x98, 0, 0, 0, 12];

/// Returns how a connection ended. Fails with [`RowFault::OutOfMemory`] if memory ran out in it.
pub fn with_memory(
    ended: Result<u64, NbdFault>,
    replies: &[u8],
) -> Result<Result<u64, NbdFault>, RowFault> {
    let is_refused = replies
        .windows(NO_MEMORY.len())
        .any(|part| part == NO_MEMORY.as_slice());
    if is_refused || ended == Err(NbdFault::OutOfMemory) {
        return Err(RowFault::OutOfMemory);
    }
    Ok(ended)
}

/// Writes how many requests were served, or why the connection ended.
pub fn write_ended(page: &mut Page, ended: Result<u64, NbdFault>) -> Result<(), RowFault> {
    match ended {
        Ok(count) => {
            page.number(count);
            page.word("served");
        }
        Err(fault) => page.show(&fault),
    }
    Ok(())
}
