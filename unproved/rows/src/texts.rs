//! Texts that are handed over in parts.

use std::alloc::{AllocError, Global};

/// Returns one text, then the entries of a table, four bytes each, and then another text.
pub fn joined(
    alloc: Global,
    before: &[u8],
    table: &[u32],
    after: &[u8],
) -> Result<Vec<u8>, AllocError> {
    let mut text = Vec::new(alloc);
    text.extend_from_slice(before)?;
    for entry in table {
        text.extend_from_slice(&entry.to_be_bytes())?;
    }
    text.extend_from_slice(after)?;
    Ok(text)
}
