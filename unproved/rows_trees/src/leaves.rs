//! The leaves of a device's trees.

use oram_geometry::Device;

/// Returns whether a tree of a device has this leaf.
pub fn has_leaf(device: &Device, tree: u8, leaf: u32) -> bool {
    leaf < 1u32 << device.depth(tree)
}
