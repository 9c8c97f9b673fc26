//! Devices of which a row needs more than one value.

use oram_geometry::Device;
use rows::{RowFault, RowWords};

/// The numbers of a device.
#[derive(Clone, Copy)]
pub(crate) struct Numbers {
    blocks: u64,
    block_bytes: u64,
    slots: u64,
    top: u64,
    lifetime: u64,
}

impl Numbers {
    /// Reads a device's blocks, the bytes of each, the slots of a bucket, the greatest number of entries of the table, and the lifetime.
    pub(crate) fn read(words: &mut RowWords) -> Numbers {
        Numbers {
            blocks: words.number(),
            block_bytes: words.number(),
            slots: words.number(),
            top: words.number(),
            lifetime: words.number(),
        }
    }

    pub(crate) fn device(&self) -> Result<Device, RowFault> {
        Ok(Device::new(
            self.blocks,
            self.block_bytes,
            self.slots,
            self.top,
            self.lifetime,
        )?)
    }
}
