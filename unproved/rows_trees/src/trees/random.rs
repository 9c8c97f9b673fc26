//! Many accesses to a tree, compared with a plain map.

use super::accesses::{AccessWords, Reached, Target, access};
use crate::stashes::next;
use oram_bucket::{ChaChaSeal, PlainSeal, Sealer};
use oram_geometry::Device;
use oram_host::Server;
use oram_tree::{Edit, Lookup, Tree, TreeParts};
use rows::{Page, RowFault, RowWords};
use std::alloc::Global;
use std::mem::replace;

/// The blocks of the map, each of [`BLOCK_BYTES`] bytes.
const BLOCKS: usize = 8;

const BLOCK_BYTES: usize = 16;

/// What the plain map has at an address: the block's leaf, or `None` if the block is absent, and the byte that fills
/// its data.
#[derive(Clone, Copy)]
struct Held {
    leaf: Option<u32>,
    fill: u8,
}

/// A tree with its host, and the plain map.
#[derive(Drop)]
struct Pair {
    parts: TreeParts,
    host: Server,
    plain: [Held; BLOCKS],
}

/// Formats a tree on a new host, and makes a map without blocks. Such a host refuses a message only if memory ran out.
fn formatted<S: Sealer>(alloc: Global, device: &Device, sealer: &S) -> Result<Pair, RowFault> {
    let mut host = Server::new(alloc);
    let Ok(tree) = Tree::format(alloc, device, 0, sealer, 7, &mut host) else {
        return Err(RowFault::OutOfMemory);
    };
    let absent = Held {
        leaf: None,
        fill: 0,
    };
    Ok(Pair {
        parts: tree.parts(alloc)?,
        host,
        plain: [absent; BLOCKS],
    })
}

/// Returns an access that the generator chooses, on the path that the map names, and the byte that decides about the
/// edit.
fn choose(leaves: u32, plain: &[Held; BLOCKS], state: &mut u64) -> (AccessWords, u8) {
    let address = next(state) % BLOCKS as u32;
    let wanted = AccessWords {
        address,
        old_leaf: plain[address as usize].leaf.unwrap_or(next(state) % leaves),
        new_leaf: next(state) % leaves,
        nonce: next(state),
    };
    (wanted, (next(state) % 256) as u8)
}

/// Returns the edit for a byte, and the byte that fills the block afterwards. An even byte changes nothing, and an odd
/// one fills the block.
fn edit_of(byte: u8, content: &[u8], fill: u8) -> (Edit<'_>, u8) {
    if byte % 2 == 0 {
        (Edit::Keep, fill)
    } else {
        (Edit::Replace(content), byte)
    }
}

impl Pair {
    /// Makes an access to the tree, and returns what it found.
    fn access<S: Sealer>(
        &mut self,
        alloc: Global,
        device: &Device,
        sealer: &S,
        wanted: AccessWords,
        edit: Edit<'_>,
    ) -> Result<Lookup, RowFault> {
        let none = TreeParts {
            root: [0; 32],
            stash: Vec::new(alloc),
        };
        let target = Target {
            device,
            number: 0,
            parts: replace(&mut self.parts, none),
            host: &mut self.host,
        };
        let Reached { lookup, parts, .. } = access(alloc, sealer, target, wanted, edit, None)?;
        self.parts = parts;
        Ok(lookup)
    }

    /// Makes the next access to the tree and to the map. Returns whether both had the same data.
    fn step<S: Sealer>(
        &mut self,
        alloc: Global,
        device: &Device,
        sealer: &S,
        state: &mut u64,
    ) -> Result<bool, RowFault> {
        let (wanted, byte) = choose(1u32 << device.depth(0), &self.plain, state);
        let place = wanted.address as usize;
        let Held { leaf, fill } = self.plain[place];
        let content = [byte; BLOCK_BYTES];
        let (edit, after) = edit_of(byte, &content, fill);
        let lookup = self.access(alloc, device, sealer, wanted, edit)?;
        self.plain[place] = Held {
            leaf: Some(wanted.new_leaf),
            fill: after,
        };
        let is_same = lookup.before.as_slice() == [fill; BLOCK_BYTES].as_slice();
        Ok(is_same && lookup.found == leaf.is_some())
    }
}

/// Returns how many of `count` accesses find the same as the plain map, up to the first that doesn't.
fn alike<S: Sealer>(
    alloc: Global,
    device: &Device,
    sealer: &S,
    count: u32,
    seed: u64,
) -> Result<u32, RowFault> {
    let mut pair = formatted(alloc, device, sealer)?;
    let mut state = seed;
    for number in 0..count {
        if !pair.step(alloc, device, sealer, &mut state)? {
            return Ok(number);
        }
    }
    Ok(count)
}

/// `tree random COUNT SEED SEALER`: makes `COUNT` accesses to a tree of eight blocks. Writes how many find what a plain
/// map has, up to the first that doesn't. The sealer is `plain` or `chacha KEY`.
pub fn accesses(
    alloc: Global,
    device: &Device,
    words: &mut RowWords,
    page: &mut Page,
) -> Result<(), RowFault> {
    let (count, seed) = (words.short(), words.number());
    let alike = match words.text() {
        "plain" => alike(alloc, device, &PlainSeal, count, seed)?,
        "chacha" => {
            let key = words.array(alloc);
            alike(alloc, device, &ChaChaSeal { key }, count, seed)?
        }
        _ => return Err(RowFault::NoRow),
    };
    page.number(alike);
    page.word("alike");
    Ok(())
}
