//! Cores that are made from changed parts.

use super::machine::Machine;
use crate::said::reason_of;
use oram_bucket::{Block, Sealer};
use oram_bytes::Bytes;
use oram_core::Parts;
use oram_tree::TreeParts;
use rows::{Page, RowFault, RowWords};
use std::alloc::Global;

/// Changes one of the parts of a core.
fn change(
    alloc: Global,
    parts: &mut Parts,
    field: &str,
    words: &mut RowWords,
) -> Result<(), RowFault> {
    match field {
        "tickets" => parts.tickets = words.number(),
        "nonce" => parts.nonce = words.number(),
        "table" => parts.table = words.shorts(alloc),
        "trees" => parts.trees.truncate(words.size()),
        "failure" => parts.failure = Some(reason_of(words)?),
        "waiting" => parts.waiting.truncate(words.size()),
        "entry" => parts.entry_number = words.short(),
        "held_entry" => parts.held_entry = words.short(),
        "held_data" => parts.held_data = Bytes::from_vec(words.bytes(alloc)),
        "message" => parts.message = Bytes::from_vec(words.bytes(alloc)),
        "stalled" => parts.stalled = words.flag(),
        _ => return Err(RowFault::NoRow),
    }
    Ok(())
}

/// Reads a block from the words `ADDRESS LEAF DATA`.
fn block_in(alloc: Global, words: &mut RowWords) -> Block {
    Block {
        address: words.short(),
        leaf: words.short(),
        content: words.bytes(alloc),
    }
}

/// Puts a block at the end of a tree's stash.
fn put_block(trees: &mut [TreeParts], number: usize, block: Block) -> Result<(), RowFault> {
    let Some(tree) = trees.get_mut(number) else {
        return Err(RowFault::NoRow);
    };
    tree.stash.push(block)?;
    Ok(())
}

impl<S: Sealer + Copy> Machine<S> {
    /// `core parts FIELD VALUE`: changes one of the parts of this core, and writes `core` if there is a core with these
    /// parts, and `content` if there is none. For `trees` and `waiting`, `VALUE` is how many are left.
    pub fn parts(
        &mut self,
        alloc: Global,
        words: &mut RowWords,
        page: &mut Page,
    ) -> Result<(), RowFault> {
        let mut parts = self.core.parts(alloc)?;
        change(alloc, &mut parts, words.text(), words)?;
        match self.core_with(alloc, parts)? {
            Some(_) => page.word("core"),
            None => page.word("content"),
        }
        Ok(())
    }

    /// `core put TREE ADDRESS LEAF DATA`: goes on with a core that has one more block at the end of a tree's stash.
    pub fn put(
        &mut self,
        alloc: Global,
        words: &mut RowWords,
        page: &mut Page,
    ) -> Result<(), RowFault> {
        let number = words.size();
        let block = block_in(alloc, words);
        let mut parts = self.core.parts(alloc)?;
        put_block(&mut parts.trees, number, block)?;
        match self.core_with(alloc, parts)? {
            Some(core) => {
                self.core = core;
                page.word("core");
            }
            None => page.word("content"),
        }
        Ok(())
    }
}
