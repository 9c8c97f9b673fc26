//! Accesses to a tree that is given by its parts, with a host.

use super::tree_of;
use crate::leaves::has_leaf;
use oram_bucket::Sealer;
use oram_geometry::Device;
use oram_host::Server;
use oram_tree::{Access, AccessRequest, Edit, Lookup, Tree, TreeFault, TreeParts};
use oram_wire::{GOOD, fetch_header, store_header};
use rows::{RowFault, RowWords, host_answer};
use std::alloc::Global;

/// What a row says of an access: the address, both leaves of the block, and the nonce.
#[derive(Clone, Copy)]
pub struct AccessWords {
    pub address: u32,
    pub old_leaf: u32,
    pub new_leaf: u32,
    pub nonce: u32,
}

impl AccessWords {
    /// Reads four words.
    pub fn read(words: &mut RowWords) -> AccessWords {
        AccessWords {
            address: words.short(),
            old_leaf: words.short(),
            new_leaf: words.short(),
            nonce: words.short(),
        }
    }
}

/// The result of an access: what it found, the tree's parts, and the records, after the bytes that were there before.
#[derive(Drop)]
pub struct Reached {
    pub lookup: Lookup,
    pub parts: TreeParts,
    pub records: Vec<u8>,
}

/// Sends the host a message that it answers with done.
pub fn tell_host(alloc: Global, host: &mut Server, body: &[u8]) -> Result<(), RowFault> {
    let answer = host_answer(alloc, host, body)?;
    if answer.as_slice() == [GOOD].as_slice() {
        Ok(())
    } else {
        Err(RowFault::NoRow)
    }
}

/// Fetches the records of a path.
fn fetched(alloc: Global, host: &mut Server, tree: u8, leaf: u32) -> Result<Vec<u8>, RowFault> {
    let answer = host_answer(alloc, host, &fetch_header(tree, leaf))?;
    match answer.as_slice() {
        [GOOD, records @ ..] => Ok(records.to_vec(alloc)?),
        _ => Err(RowFault::NoRow),
    }
}

/// Stores the records of a path.
pub fn stored(
    alloc: Global,
    host: &mut Server,
    tree: u8,
    leaf: u32,
    records: &[u8],
) -> Result<(), RowFault> {
    let mut store = store_header(tree, leaf).to_vec(alloc)?;
    store.extend_from_slice(records)?;
    tell_host(alloc, host, &store)
}

/// Returns whether a tree has the block and the leaves.
fn fits_tree(device: &Device, tree: u8, wanted: AccessWords) -> bool {
    wanted.address < device.blocks_in(tree)
        && has_leaf(device, tree, wanted.old_leaf)
        && has_leaf(device, tree, wanted.new_leaf)
}

/// Returns whether an edit is one for a block of this tree.
fn is_edit(device: &Device, tree: u8, edit: Edit<'_>) -> bool {
    match edit {
        Edit::Keep => true,
        Edit::Replace(bytes) => bytes.len() == device.block_bytes(),
        Edit::Entry(index, value) => {
            tree >= 1 && index < device.fanout() && value <= 1u32 << device.depth(tree - 1)
        }
    }
}

/// Fails with [`RowFault::NoRow`] if the device has no tree with this block, these leaves and this edit.
fn check_fit(
    device: &Device,
    tree: u8,
    wanted: AccessWords,
    edit: Edit<'_>,
) -> Result<(), RowFault> {
    if tree < device.trees() && fits_tree(device, tree, wanted) && is_edit(device, tree, edit) {
        Ok(())
    } else {
        Err(RowFault::NoRow)
    }
}

/// Returns the row's fault for a fault of an access.
fn row_fault(fault: TreeFault) -> RowFault {
    match fault {
        TreeFault::OutOfMemory => RowFault::OutOfMemory,
        TreeFault::Unreadable => RowFault::NoRow,
    }
}

/// What an access is made to: a tree with these parts, and its host.
#[derive(Drop)]
pub struct Target<'a> {
    pub device: &'a Device,
    pub number: u8,
    pub parts: TreeParts,
    pub host: &'a mut Server,
}

/// Accesses a tree whose path has these bytes. Returns what it found, and the records, after the bytes of `front` if
/// there are some.
fn reach<S: Sealer>(
    alloc: Global,
    device: &Device,
    sealer: &S,
    tree: &mut Tree,
    bytes: &[u8],
    wanted: AccessWords,
    edit: Edit<'_>,
    front: Option<Vec<u8>>,
) -> Result<(Lookup, Vec<u8>), RowFault> {
    let AccessWords {
        address,
        old_leaf,
        new_leaf,
        nonce,
    } = wanted;
    let nonce = u64::from(nonce);
    let Ok(path) = tree.check(device, old_leaf, sealer.overhead(), bytes) else {
        return Err(RowFault::NoRow);
    };
    let Some(mut out) = front else {
        let made = tree.access(
            alloc, device, sealer, &path, address, old_leaf, new_leaf, nonce, edit,
        );
        return alone(made);
    };
    let request = AccessRequest {
        address,
        old_leaf,
        new_leaf,
        nonce,
    };
    let made = tree.access_to(alloc, device, sealer, &path, request, edit, &mut out);
    behind(made, out)
}

/// Returns the result of an access whose records have nothing before them.
fn alone(made: Result<Access, TreeFault>) -> Result<(Lookup, Vec<u8>), RowFault> {
    match made {
        Ok(
            Access {
                before,
                found,
                records,
            },
        ) => Ok((Lookup { before, found }, records)),
        Err(fault) => Err(row_fault(fault)),
    }
}

/// Returns the result of an access whose records have other bytes before them.
fn behind(made: Result<Lookup, TreeFault>, out: Vec<u8>) -> Result<(Lookup, Vec<u8>), RowFault> {
    match made {
        Ok(lookup) => Ok((lookup, out)),
        Err(fault) => Err(row_fault(fault)),
    }
}

/// Makes the tree with these parts.
fn whole_tree(
    alloc: Global,
    device: &Device,
    number: u8,
    parts: TreeParts,
) -> Result<Tree, RowFault> {
    match tree_of(alloc, device, number, parts)? {
        Some(tree) => Ok(tree),
        None => Err(RowFault::NoRow),
    }
}

/// Accesses the tree with these parts.
fn carried_out<S: Sealer>(
    alloc: Global,
    device: &Device,
    sealer: &S,
    number: u8,
    parts: TreeParts,
    bytes: &[u8],
    wanted: AccessWords,
    edit: Edit<'_>,
    front: Option<Vec<u8>>,
) -> Result<Reached, RowFault> {
    check_fit(device, number, wanted, edit)?;
    let mut tree = whole_tree(alloc, device, number, parts)?;
    let (lookup, records) = reach(alloc, device, sealer, &mut tree, bytes, wanted, edit, front)?;
    Ok(Reached {
        lookup,
        parts: tree.parts(alloc)?,
        records,
    })
}

/// Accesses a tree, and stores the records. Returns them after the bytes of `front` if there are some.
pub fn access<S: Sealer>(
    alloc: Global,
    sealer: &S,
    target: Target<'_>,
    wanted: AccessWords,
    edit: Edit<'_>,
    front: Option<Vec<u8>>,
) -> Result<Reached, RowFault> {
    let Target {
        device,
        number,
        parts,
        host,
    } = target;
    let start = match &front {
        Some(front) => front.len(),
        None => 0,
    };
    let bytes = fetched(alloc, host, number, wanted.old_leaf)?;
    let reached = carried_out(
        alloc, device, sealer, number, parts, &bytes, wanted, edit, front,
    )?;
    let records = reached.records.get(start..).unwrap_or_default();
    stored(alloc, host, number, wanted.old_leaf, records)?;
    Ok(reached)
}
