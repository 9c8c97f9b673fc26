//! Reads patches from words.

use crate::redos::BOUNDS;
use oram_redo::Patch;
use rows::{RowFault, RowWords};
use std::alloc::Global;

/// A patch with its bytes.
#[derive(Drop)]
pub struct OwnedPatch {
    pub at: u64,
    pub bytes: Vec<u8>,
}

/// Reads the words that are left as patches, `AT BYTES AT BYTES ..`.
pub fn patches_in(alloc: Global, words: &mut RowWords) -> Result<Vec<OwnedPatch>, RowFault> {
    let mut patches = Vec::new(alloc);
    for _ in 0..u64::MAX {
        if words.is_empty() {
            break;
        }
        let at = words.number();
        let bytes = words.bytes(alloc);
        patches.push(OwnedPatch { at, bytes })?;
    }
    Ok(patches)
}

/// Lends the bytes of a patch. Fails with [`RowFault::NoRow`] if the patch doesn't end within the file
/// of records.
fn lent(patch: &OwnedPatch) -> Result<Patch<'_>, RowFault> {
    let len = patch.bytes.len() as u64;
    if patch.at > BOUNDS.records_end || len > BOUNDS.records_end - patch.at {
        return Err(RowFault::NoRow);
    }
    Ok(Patch {
        at: patch.at,
        bytes: &patch.bytes,
    })
}

/// Returns the batch of these patches.
pub fn batch_of(alloc: Global, patches: &[OwnedPatch]) -> Result<Vec<Patch<'_>>, RowFault> {
    let mut batch = Vec::new(alloc);
    for patch in patches {
        batch.push(lent(patch)?)?;
    }
    Ok(batch)
}
