//! The sizes of a device, and the leaves and nodes of its trees.

use crate::fault_text::show_fault;
use oram_geometry::Device;
use rows::{Page, RowFault, RowWords, device_in};
use std::alloc::Global;

/// The device that the next rows are about.
#[derive(Drop)]
pub struct Devices {
    device: Option<Device>,
}

/// `device record OVERHEAD`: writes the length of a record.
fn record(device: &Device, words: &mut RowWords, page: &mut Page) -> Result<(), RowFault> {
    let overhead = words.size();
    if overhead > 64 {
        return Err(RowFault::NoRow);
    }
    page.number(device.record_len(overhead));
    Ok(())
}

/// Answers a row about a tree of the device:
///
/// - `device tree TREE`: writes how many blocks the tree has, and its depth.
/// - `device address TREE ADDRESS`: writes the address in the tree of the block that leads to this block of the device.
/// - `device leaf TREE WORD`: writes the leaf that a word names.
/// - `device node TREE LEAF LEVEL`: writes the node at a level of a leaf's path.
/// - `device shared TREE LEAF LEAF`: writes the greatest level at which the paths of two leaves share a node.
fn about_tree(
    device: &Device,
    name: &str,
    words: &mut RowWords,
    page: &mut Page,
) -> Result<(), RowFault> {
    let tree = words.byte();
    if tree >= device.trees() {
        return Err(RowFault::NoRow);
    }
    let leaves = 1u32 << device.depth(tree);
    match name {
        "tree" => {
            page.number(device.blocks_in(tree));
            page.number(device.depth(tree));
        }
        "address" => {
            let address = words.short();
            if address >= device.blocks_in(0) {
                return Err(RowFault::NoRow);
            }
            page.number(device.address_in(tree, address));
        }
        "leaf" => page.number(device.leaf_of(tree, words.number())),
        "node" => {
            let (leaf, level) = (words.short(), words.byte());
            if leaf >= leaves || level > device.depth(tree) {
                return Err(RowFault::NoRow);
            }
            page.number(device.node_on(tree, leaf, level));
        }
        "shared" => {
            let (x, y) = (words.short(), words.short());
            if x >= leaves || y >= leaves {
                return Err(RowFault::NoRow);
            }
            page.number(device.shared_level(tree, x, y));
        }
        _ => return Err(RowFault::NoRow),
    }
    Ok(())
}

/// `device sizes`: writes the bytes of a block, the slots, the table's entries, the lifetime, and the entries of a map
/// block.
fn sizes(device: &Device, page: &mut Page) -> Result<(), RowFault> {
    page.number(device.block_bytes());
    page.number(device.slots());
    page.number(device.top());
    page.number(device.lifetime());
    page.number(device.fanout());
    Ok(())
}

impl Devices {
    pub fn new() -> Devices {
        Devices { device: None }
    }

    /// `device new BLOCKS BLOCK_BYTES SLOTS TOP LIFETIME`: makes the device. Writes how many trees it has, or the
    /// first fault.
    fn begin(&mut self, words: &mut RowWords, page: &mut Page) -> Result<(), RowFault> {
        match device_in(words) {
            Ok(device) => {
                page.number(device.trees());
                page.word(if device.trees() == 1 { "tree" } else { "trees" });
                self.device = Some(device);
            }
            Err(fault) => show_fault(page, Some(fault.number()), &fault),
        }
        Ok(())
    }

    /// Answers a row about the device.
    pub fn answer(
        &mut self,
        name: &str,
        words: &mut RowWords,
        page: &mut Page,
    ) -> Result<(), RowFault> {
        if name == "new" {
            return self.begin(words, page);
        }
        let Some(device) = &self.device else {
            return Err(RowFault::NoRow);
        };
        match name {
            "sizes" => sizes(device, page),
            "record" => record(device, words, page),
            _ => about_tree(device, name, words, page),
        }
    }
}
