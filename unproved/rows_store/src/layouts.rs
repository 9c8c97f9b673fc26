//! The shape of a tree, and the places of its cells.

use oram_layout::{Shape, Tree, entry_place};
use rows::{Page, RowFault, RowWords};
use std::alloc::Global;

/// Reads the shape from the words `DEPTH RECORD_LEN`; `None` if no tree may have it.
fn shape_in(words: &mut RowWords) -> Option<Shape> {
    Shape::new(words.byte(), words.short())
}

/// Reads the tree from the words `DEPTH RECORD_LEN BASE`; `None` if it ends beyond the last place for cells.
fn placed_in(words: &mut RowWords) -> Result<Option<Tree>, RowFault> {
    let shape = shape_in(words).ok_or(RowFault::NoRow)?;
    Ok(Tree::place(shape, words.number()))
}

/// Reads the tree from the words `DEPTH RECORD_LEN BASE`.
fn tree_in(words: &mut RowWords) -> Result<Tree, RowFault> {
    placed_in(words)?.ok_or(RowFault::NoRow)
}

/// `layout shape DEPTH RECORD_LEN`: writes how many leaves and nodes a tree of this shape has, and how many bytes the
/// records of a path have.
fn shape(words: &mut RowWords, page: &mut Page) -> Result<(), RowFault> {
    let Some(shape) = shape_in(words) else {
        page.word("none");
        return Ok(());
    };
    page.number(shape.leaves());
    page.number(shape.nodes());
    page.number(shape.path_len());
    Ok(())
}

/// `layout node DEPTH RECORD_LEN LEAF LEVEL`: writes the node at a level of a leaf's path.
fn node(words: &mut RowWords, page: &mut Page) -> Result<(), RowFault> {
    let shape = shape_in(words).ok_or(RowFault::NoRow)?;
    let leaf = words.short();
    let level = words.byte();
    if leaf >= shape.leaves() || level > shape.depth {
        return Err(RowFault::NoRow);
    }
    page.number(shape.node_at(leaf, level));
    Ok(())
}

/// `layout place DEPTH RECORD_LEN BASE`: writes where the cells of a tree end if they begin at `BASE`.
fn place(words: &mut RowWords, page: &mut Page) -> Result<(), RowFault> {
    match placed_in(words)? {
        Some(tree) => page.number(tree.end()),
        None => page.word("none"),
    }
    Ok(())
}

/// `layout cell DEPTH RECORD_LEN BASE NODE`: writes the place of a node's cell.
fn cell(words: &mut RowWords, page: &mut Page) -> Result<(), RowFault> {
    let tree = tree_in(words)?;
    let node = words.short();
    if node >= tree.shape.nodes() {
        return Err(RowFault::NoRow);
    }
    page.number(tree.cell_at(node));
    Ok(())
}

/// Answers a row about places. `layout entry DEPTH RECORD_LEN BASE` writes a tree's entry in the header, and
/// `layout entry_at TREE` writes the place of the entry of tree `TREE`.
pub fn answer(name: &str, words: &mut RowWords, page: &mut Page) -> Result<(), RowFault> {
    match name {
        "shape" => shape(words, page),
        "node" => node(words, page),
        "place" => place(words, page),
        "cell" => cell(words, page),
        "entry" => {
            page.bytes(&tree_in(words)?.entry());
            Ok(())
        }
        "entry_at" => {
            page.number(entry_place(words.byte()));
            Ok(())
        }
        _ => Err(RowFault::NoRow),
    }
}
