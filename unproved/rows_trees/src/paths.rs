//! Paths made by hand.

use oram_geometry::Device;
use oram_hash::{NO_DIGEST, node_digest};
use std::alloc::{AllocError, Global};

/// The digest of every node beside the path.
const BESIDE: [u8; 32] = [9; 32];

/// The records of a path, root first, and the digest of the root's record.
#[derive(Drop)]
pub struct MadePath {
    pub bytes: Vec<u8>,
    pub root: [u8; 32],
}

/// Returns the length of a bucket that is sealed by [`oram_bucket::PlainSeal`].
pub fn bucket_len(device: &Device) -> usize {
    device.record_len(0) - 64
}

/// Returns the two digests at the end of a record above the leaf's.
fn children(is_left: bool, below: &[u8; 32]) -> ([u8; 32], [u8; 32]) {
    if is_left {
        (*below, BESIDE)
    } else {
        (BESIDE, *below)
    }
}

/// Makes the path of a leaf. The sealed bucket of each record repeats one byte: `fills` has that byte, level by level.
pub fn made_path(
    alloc: Global,
    leaf: u32,
    bucket_len: usize,
    fills: &[u8],
) -> Result<MadePath, AllocError> {
    let mut bytes: Vec<u8> = Vec::new(alloc);
    let mut root = NO_DIGEST;
    let mut node = leaf;
    for fill in fills.iter().rev() {
        let (left, right) = if bytes.is_empty() {
            (NO_DIGEST, NO_DIGEST)
        } else {
            children(node % 2 == 0, &root)
        };
        node = if bytes.is_empty() { leaf } else { node / 2 };
        let mut record = vec![in alloc; *fill; bucket_len]?;
        record.extend_from_slice(&left)?;
        record.extend_from_slice(&right)?;
        root = node_digest(&record);
        record.extend_from_slice(&bytes)?;
        bytes = record;
    }
    Ok(MadePath { bytes, root })
}
