//! Records of a formatting that are easy to tell from others.
ghost use Rattle.std.specs.Prelude.{◌≡◌, ◌+◌, refl, replicate, slice_index_or};
ghost use Rattle.std.proofs.lemmas.List.{length-replicate};

use oram_geometry::Device;
use oram_near::EmptyRecords;
use std::alloc::{AllocError, Global};

/// Each byte of a record is the first byte of the rest plus the record's level, or `e0` plus the level if the rest has no bytes.
#[derive(Drop)]
pub(crate) struct LevelBytes {
    pub(crate) device: Device,
    pub(crate) record_len: usize,
    pub(crate) rest_len: usize,
}

impl EmptyRecords for LevelBytes {
    ghost device = { λ e. e.device };

    ghost record_len = { λ e. e.record_len };

    ghost rest_len = { λ e. e.rest_len };

    ghost record_at = { λ e rest tree leaf level. replicate e.record_len (slice_index_or rest 0 224 + level) };

    ghost are_empty_records = { λ e rest whole. record { long = λ tree leaf level _ _ _. length-replicate e.record_len (slice_index_or rest 0 224 + level); one = λ tree leaf other level _ _ _ _ _. refl } };

    fn append_path(
        &self,
        _alloc: Global,
        rest: &[u8],
        tree: u8,
        _leaf: u32,
        first: u8,
        path: &mut Vec<u8>,
    ) -> Result<(), AllocError> {
        for level in first..self.device.depth(tree) + 1 {
            self.append_level(rest, level, path)?;
        }
        Ok(())
    }

    fn append_record(
        &self,
        _alloc: Global,
        rest: &[u8],
        _tree: u8,
        _leaf: u32,
        level: u8,
        out: &mut Vec<u8>,
    ) -> Result<(), AllocError> {
        self.append_level(rest, level, out)
    }
}

impl LevelBytes {
    /// Appends the record at a level of any path.
    fn append_level(&self, rest: &[u8], level: u8, out: &mut Vec<u8>) -> Result<(), AllocError> {
        let byte = rest.first().copied().unwrap_or(0xe0) + level;
        for _ in 0..self.record_len {
            out.push(byte)?;
        }
        Ok(())
    }
}
