//! Evictions of many stashes, compared with the simplest eviction that there is.

use super::{bare_block, evicted, stash_of};
use oram_geometry::Device;
use oram_stash::Stash;
use rows::{Page, RowFault, RowWords};
use std::alloc::{AllocError, Global};

/// The number of blocks of the devices, and of the leaves of their trees.
const LEAVES: u32 = 128;

/// Returns the next number of a fixed generator.
pub fn next(state: &mut u64) -> u32 {
    *state = state
        .wrapping_mul(6_364_136_223_846_793_005)
        .wrapping_add(1_442_695_040_888_963_407);
    (*state >> 33) as u32
}

/// Returns the next leaf.
fn next_leaf(state: &mut u64) -> u32 {
    next(state) % LEAVES
}

/// Makes 0 to 60 blocks, in increasing order of address: the address and the leaf of each.
fn next_blocks(alloc: Global, state: &mut u64) -> Result<Vec<(u32, u32)>, AllocError> {
    let mut blocks = Vec::new(alloc);
    for k in 0..next(state) % 61 {
        let address = 2 * k + next(state) % 2;
        blocks.push((address, next_leaf(state)))?;
    }
    Ok(blocks)
}

/// Returns the addresses that the simple eviction takes for a level: the least ones that fit there and have no place
/// yet.
fn plain_level(
    alloc: Global,
    slots: usize,
    leaf: u32,
    height: u8,
    blocks: &[(u32, u32)],
    placed: &[u32],
) -> Result<Vec<u32>, AllocError> {
    let width = 1u32 << height.min(31);
    let mut list = Vec::new(alloc);
    for (address, own) in blocks {
        let fits = list.len() < slots && *own / width == leaf / width;
        if fits && !placed.contains(address) {
            list.push(*address)?;
        }
    }
    Ok(list)
}

/// Plans the simple eviction, which looks through all blocks for each level. Returns the addresses by level, the
/// deepest level first.
fn plain_eviction(
    alloc: Global,
    device: &Device,
    leaf: u32,
    blocks: &[(u32, u32)],
) -> Result<Vec<Vec<u32>>, AllocError> {
    let mut lists = Vec::new(alloc);
    let mut placed: Vec<u32> = Vec::new(alloc);
    for height in 0..=device.depth(0) {
        let list = plain_level(alloc, device.slots(), leaf, height, blocks, &placed)?;
        placed.extend_from_slice(&list)?;
        lists.push(list)?;
    }
    Ok(lists)
}

/// Evicts with the stash. Returns the addresses by level, the deepest level first, and how many blocks stay.
fn eviction(
    alloc: Global,
    device: &Device,
    leaf: u32,
    blocks: &[(u32, u32)],
) -> Result<(Vec<Vec<u32>>, usize), RowFault> {
    let mut stash = stash_with(alloc, blocks)?;
    let (levels, _tight) = evicted(alloc, device, leaf, &mut stash)?;
    let mut lists = Vec::new(alloc);
    for list in levels.iter().rev() {
        lists.push(list.iter().map(|block| block.address).collect(alloc)?)?;
    }
    Ok((lists, stash.len()))
}

/// Makes a stash of blocks with these addresses and leaves.
fn stash_with(alloc: Global, blocks: &[(u32, u32)]) -> Result<Stash, RowFault> {
    let mut whole = Vec::new(alloc);
    for (address, leaf) in blocks {
        whole.push(bare_block(alloc, *address, *leaf))?;
    }
    stash_of(alloc, whole)
}

/// Returns how many blocks are in none of these lists.
fn left_over(blocks: &[(u32, u32)], lists: &[Vec<u32>]) -> usize {
    blocks
        .iter()
        .filter(|(address, _)| !lists.iter().any(|list| list.contains(address)))
        .count()
}

/// Makes the device of a round, whose buckets have 1 to 4 slots.
fn device_of(round: u32) -> Result<Device, RowFault> {
    let (count, slots) = (u64::from(LEAVES), u64::from(round % 4) + 1);
    match Device::new(count, 16, slots, count, 1) {
        Ok(device) => Ok(device),
        Err(_) => Err(RowFault::NoRow),
    }
}

/// Returns whether both evict the next stash alike.
fn is_alike(alloc: Global, round: u32, state: &mut u64) -> Result<bool, RowFault> {
    let device = device_of(round)?;
    let leaf = next_leaf(state);
    let blocks = next_blocks(alloc, state)?;
    let (lists, stays) = eviction(alloc, &device, leaf, &blocks)?;
    let plain = plain_eviction(alloc, &device, leaf, &blocks)?;
    Ok(lists == plain && stays == left_over(&blocks, &plain))
}

/// Returns how many of `count` stashes are evicted alike, up to the first that isn't.
fn alike(alloc: Global, count: u32, seed: u64) -> Result<u32, RowFault> {
    let mut state = seed;
    for round in 0..count {
        if !is_alike(alloc, round, &mut state)? {
            return Ok(round);
        }
    }
    Ok(count)
}

/// `stash random COUNT SEED`: writes how many of `COUNT` stashes are evicted as by the simple eviction, up to the first
/// that isn't. The buckets have 1 to 4 slots in turn.
pub fn evictions(alloc: Global, words: &mut RowWords, page: &mut Page) -> Result<(), RowFault> {
    let alike = alike(alloc, words.short(), words.number())?;
    page.number(alike);
    page.word("alike");
    Ok(())
}
