//! The entries of a header, read as trees.

use oram_layout::{ENTRY_LEN, LayoutFault, TREES, Tree, next_base, read_trees};
use rows::{Page, RowFault, RowWords};
use std::alloc::Global;

/// Reads the next word, the 4096 bytes of a header's entries, as trees. Returns the fault if they are no
/// trees.
fn trees_in(
    alloc: Global,
    words: &mut RowWords,
) -> Result<Result<Vec<Option<Tree>>, LayoutFault>, RowFault> {
    let entries = words.bytes(alloc);
    if entries.len() != ENTRY_LEN * TREES {
        return Err(RowFault::NoRow);
    }
    match read_trees(alloc, &entries) {
        Err(LayoutFault::OutOfMemory) => Err(RowFault::OutOfMemory),
        read => Ok(read),
    }
}

/// Writes a tree: its number, its depth, the length of a record, and the place where its cells begin.
fn write_tree(page: &mut Page, number: u64, tree: &Tree) {
    page.part();
    page.number(number);
    page.number(tree.shape.depth);
    page.number(tree.shape.record_len);
    page.number(tree.base);
}

/// Writes each tree, or `none`.
fn write_trees(page: &mut Page, trees: &[Option<Tree>]) {
    for (number, tree) in trees.iter().enumerate() {
        if let Some(tree) = tree {
            write_tree(page, number as u64, tree);
        }
    }
    if page.is_empty() {
        page.word("none");
    }
}

/// Answers a row about a header. `header trees ENTRIES` writes the trees, and `header next ENTRIES` the place where the cells
/// of the next tree will begin.
pub fn answer(
    alloc: Global,
    name: &str,
    words: &mut RowWords,
    page: &mut Page,
) -> Result<(), RowFault> {
    match (&trees_in(alloc, words)?, name) {
        (Ok(trees), "trees") => write_trees(page, trees),
        (Ok(trees), "next") => page.number(next_base(trees)),
        (Err(fault), "trees" | "next") => page.show(fault),
        _ => return Err(RowFault::NoRow),
    }
    Ok(())
}
