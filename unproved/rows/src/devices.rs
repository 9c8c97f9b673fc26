//! Devices, whose sizes rows give.

use crate::page::Page;
use crate::table::RowFault;
use crate::words::RowWords;
use oram_geometry::{Device, ShapeFault};

impl From<ShapeFault> for RowFault {
    fn from(_fault: ShapeFault) -> RowFault {
        RowFault::NoRow
    }
}

/// Makes the device of the next five words: its blocks, the bytes of each, the slots of a bucket, the greatest number of
/// entries of the table, and the lifetime. The words `packed LEAF-LOAD` may stand before them; otherwise the leaf load is 1.
pub fn device_in(words: &mut RowWords) -> Result<Device, ShapeFault> {
    let is_packed = words.takes("packed");
    let leaf_load = if is_packed { words.number() } else { 1 };
    let (blocks, block_bytes, slots) = (words.number(), words.number(), words.number());
    let (top, lifetime) = (words.number(), words.number());
    if is_packed {
        Device::packed(blocks, block_bytes, slots, top, lifetime, leaf_load)
    } else {
        Device::new(blocks, block_bytes, slots, top, lifetime)
    }
}

/// Makes the device of the next words, and writes how many trees it has. If there is none, writes the number of the
/// fault.
pub fn shown_device_in(words: &mut RowWords, page: &mut Page) -> Option<Device> {
    match device_in(words) {
        Ok(device) => {
            page.word("ready");
            page.number(device.trees());
            Some(device)
        }
        Err(fault) => {
            page.word("shape");
            page.number(fault.number());
            None
        }
    }
}
