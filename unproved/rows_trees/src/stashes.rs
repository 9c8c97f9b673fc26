//! Rows of stashes. Their blocks have no data, and are written `ADDRESS:LEAF`.

mod random;

use crate::leaves::has_leaf;
use crate::lists::short_of;
use oram_bucket::Block;
use oram_geometry::Device;
use oram_stash::{Placement, Stash, StashFault, place};
pub use random::next;
use rows::{Page, RowFault, RowWords};
use std::alloc::{AllocError, Global};

/// Makes a block without data.
fn bare_block(alloc: Global, address: u32, leaf: u32) -> Block {
    Block {
        address,
        leaf,
        content: Vec::new(alloc),
    }
}

/// Reads the block in a word.
fn block_of(alloc: Global, word: &str) -> Result<Block, RowFault> {
    let Some((address, leaf)) = word.split_once(':') else {
        return Err(RowFault::NoRow);
    };
    Ok(bare_block(alloc, short_of(address)?, short_of(leaf)?))
}

/// Reads the blocks in all words that are left.
fn blocks_of(alloc: Global, words: &mut RowWords) -> Result<Vec<Block>, RowFault> {
    let mut blocks = Vec::new(alloc);
    for word in &words.texts(alloc) {
        blocks.push(block_of(alloc, word)?)?;
    }
    Ok(blocks)
}

/// Makes a stash that absorbs these blocks.
fn stash_of(alloc: Global, blocks: Vec<Block>) -> Result<Stash, RowFault> {
    let mut stash = Stash::new(alloc);
    for block in blocks {
        match stash.absorb(block) {
            Ok(()) => {}
            Err(StashFault::Duplicate(_)) => return Err(RowFault::NoRow),
            Err(StashFault::OutOfMemory(_)) => return Err(RowFault::OutOfMemory),
        }
    }
    Ok(stash)
}

/// Returns whether tree 0 has the leaves of all these blocks.
fn all_have_leaves(device: &Device, blocks: &[Block]) -> bool {
    blocks.iter().all(|block| has_leaf(device, 0, block.leaf))
}

/// Writes a block.
fn show_block(alloc: Global, block: &Block, page: &mut Page) {
    let (address, leaf) = (block.address, block.leaf);
    let word: Result<String, AllocError> = format!(in alloc; "{address}:{leaf}");
    page.made(word);
}

/// Writes the block if there is one, or `none`.
fn show_found(alloc: Global, block: Option<&Block>, page: &mut Page) {
    match block {
        Some(block) => show_block(alloc, block, page),
        None => page.word("none"),
    }
}

/// Writes blocks, and `-` if there are none.
fn show_blocks(alloc: Global, blocks: &[Block], page: &mut Page) {
    if blocks.is_empty() {
        page.word("-");
    }
    for block in blocks {
        show_block(alloc, block, page);
    }
}

/// Writes the addresses of blocks that are lent, and `-` if there are none.
fn show_lent(blocks: &[&Block], page: &mut Page) {
    if blocks.is_empty() {
        page.word("-");
    }
    for block in blocks {
        page.number(block.address);
    }
}

/// Writes the addresses of blocks, and `-` if there are none.
fn show_addresses(blocks: &[Block], page: &mut Page) {
    if blocks.is_empty() {
        page.word("-");
    }
    for block in blocks {
        page.number(block.address);
    }
}

/// The blocks that an eviction takes out of a stash, level by level, and the level down to which the path is full
/// afterwards.
type Evicted = (Vec<Vec<Block>>, Option<u8>);

/// Evicts the blocks of a stash to the path of a leaf.
fn evicted(
    alloc: Global,
    device: &Device,
    leaf: u32,
    stash: &mut Stash,
) -> Result<Evicted, RowFault> {
    let blocks = stash.list(alloc)?;
    if !has_leaf(device, 0, leaf) || !all_have_leaves(device, &blocks) {
        return Err(RowFault::NoRow);
    }
    let lists = stash.evict(alloc, device, 0, leaf)?;
    let tight = stash.tight_level(device, 0, leaf, &lists);
    Ok((lists, tight))
}

/// A stash, and a copy of one, which are kept from row to row.
#[derive(Drop)]
pub struct Stashes {
    stash: Stash,
    copy: Stash,
}

impl Stashes {
    pub fn new(alloc: Global) -> Stashes {
        Stashes {
            stash: Stash::new(alloc),
            copy: Stash::new(alloc),
        }
    }

    /// `stash of BLOCKS`: makes a stash that absorbs these blocks, and writes how many it has.
    fn of(&mut self, alloc: Global, words: &mut RowWords, page: &mut Page) -> Result<(), RowFault> {
        self.stash = stash_of(alloc, blocks_of(alloc, words)?)?;
        page.number(self.stash.len());
        Ok(())
    }

    /// `stash made BLOCKS`: makes a stash of these blocks, in this order. Writes how many it has, or `none` if there is
    /// no such stash.
    fn made(
        &mut self,
        alloc: Global,
        words: &mut RowWords,
        page: &mut Page,
    ) -> Result<(), RowFault> {
        match Stash::from_blocks(blocks_of(alloc, words)?) {
            Some(stash) => {
                page.number(stash.len());
                self.stash = stash;
            }
            None => page.word("none"),
        }
        Ok(())
    }

    /// `stash absorb BLOCK`: writes `absorbed`, or the block that is given back.
    fn absorb(
        &mut self,
        alloc: Global,
        words: &mut RowWords,
        page: &mut Page,
    ) -> Result<(), RowFault> {
        match self.stash.absorb(block_of(alloc, words.text())?) {
            Ok(()) => page.word("absorbed"),
            Err(StashFault::Duplicate(block)) => {
                page.word("duplicate");
                show_block(alloc, &block, page);
            }
            Err(StashFault::OutOfMemory(_)) => return Err(RowFault::OutOfMemory),
        }
        Ok(())
    }

    /// `stash get ADDRESS`: writes the block, or `none`. `stash take ADDRESS`: does so, and takes the block out of the stash.
    /// `stash contains ADDRESS`: writes whether the stash has the block.
    fn find(
        &mut self,
        alloc: Global,
        call: &str,
        words: &mut RowWords,
        page: &mut Page,
    ) -> Result<(), RowFault> {
        let address = words.short();
        match call {
            "get" => show_found(alloc, self.stash.get(address), page),
            "take" => {
                let taken = self.stash.take(address);
                show_found(alloc, taken.as_ref(), page);
            }
            _ => page.flag(self.stash.contains(address)),
        }
        Ok(())
    }

    /// `stash found COUNT`: writes the blocks that the stash has at the addresses below `COUNT`.
    fn found(&self, alloc: Global, words: &mut RowWords, page: &mut Page) -> Result<(), RowFault> {
        for address in 0..words.short() {
            if let Some(block) = self.stash.get(address) {
                show_block(alloc, block, page);
            }
        }
        if page.is_empty() {
            page.word("-");
        }
        Ok(())
    }

    /// `stash evict LEAF`: writes the addresses that are evicted, level by level, those that stay, and the level down
    /// to which the path is full.
    fn evict(
        &mut self,
        alloc: Global,
        device: &Device,
        words: &mut RowWords,
        page: &mut Page,
    ) -> Result<(), RowFault> {
        let (lists, tight) = evicted(alloc, device, words.short(), &mut self.stash)?;
        for list in &lists {
            show_addresses(list, page);
            page.part();
        }
        page.word("stays");
        show_addresses(&self.stash.list(alloc)?, page);
        page.part();
        page.word("tight");
        match tight {
            Some(level) => page.number(level),
            None => page.word("none"),
        }
        Ok(())
    }

    /// Returns where an eviction puts the blocks of this stash, except for the one at address `stays`. The stash
    /// `other` is empty.
    fn placed<'a>(
        &'a self,
        alloc: Global,
        device: &Device,
        other: &'a Stash,
        leaf: u32,
        stays: u32,
    ) -> Result<Placement<'a>, RowFault> {
        let waiting = self.stash.waiting(alloc, other, stays)?;
        let are_leaves = has_leaf(device, 0, leaf)
            && waiting.iter().all(|block| has_leaf(device, 0, block.leaf));
        if !are_leaves {
            return Err(RowFault::NoRow);
        }
        Ok(place(alloc, device, 0, leaf, waiting)?)
    }

    /// `stash place LEAF ADDRESS`: plans an eviction in which the block at `ADDRESS` stays. Writes the addresses of the blocks
    /// that it puts at each level, and those of the other blocks that stay.
    fn place(
        &self,
        alloc: Global,
        device: &Device,
        words: &mut RowWords,
        page: &mut Page,
    ) -> Result<(), RowFault> {
        let (leaf, stays) = (words.short(), words.short());
        let other = Stash::new(alloc);
        let Placement { lists, rest } = self.placed(alloc, device, &other, leaf, stays)?;
        for list in &lists {
            show_lent(list, page);
            page.part();
        }
        page.word("stays");
        show_lent(&rest, page);
        Ok(())
    }

    /// `stash keep ADDRESS`: removes all blocks but the one at `ADDRESS`, and writes what is left.
    fn keep_left_over(
        &mut self,
        alloc: Global,
        words: &mut RowWords,
        page: &mut Page,
    ) -> Result<(), RowFault> {
        let stays = [words.short()];
        let other = Stash::new(alloc);
        let room = self.stash.room_with(alloc, &other)?;
        self.stash.keep_left_over(other, &stays, room);
        show_blocks(alloc, &self.stash.list(alloc)?, page);
        Ok(())
    }

    /// Makes a call on the stash as a whole: `empty` writes whether it has no blocks, `len` how many it has, `list` the blocks.
    /// `copy` keeps a copy, and writes how many blocks it has; `copied` writes the blocks of the copy.
    fn answer_whole(&mut self, alloc: Global, call: &str, page: &mut Page) -> Result<(), RowFault> {
        match call {
            "empty" => page.flag(self.stash.is_empty()),
            "len" => page.number(self.stash.len()),
            "list" => show_blocks(alloc, &self.stash.list(alloc)?, page),
            "copied" => show_blocks(alloc, &self.copy.list(alloc)?, page),
            "copy" => {
                self.copy = self.stash.copy(alloc)?;
                page.number(self.copy.len());
            }
            _ => return Err(RowFault::NoRow),
        }
        Ok(())
    }

    /// Makes a call.
    pub fn answer(
        &mut self,
        alloc: Global,
        device: &Device,
        words: &mut RowWords,
        page: &mut Page,
    ) -> Result<(), RowFault> {
        let call = words.text();
        match call {
            "of" => self.of(alloc, words, page),
            "made" => self.made(alloc, words, page),
            "absorb" => self.absorb(alloc, words, page),
            "get" | "take" | "contains" => self.find(alloc, call, words, page),
            "found" => self.found(alloc, words, page),
            "evict" => self.evict(alloc, device, words, page),
            "place" => self.place(alloc, device, words, page),
            "keep" => self.keep_left_over(alloc, words, page),
            "random" => random::evictions(alloc, words, page),
            _ => self.answer_whole(alloc, call, page),
        }
    }
}
