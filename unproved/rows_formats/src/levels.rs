//! The messages about some levels of a path, and the payload of the answer to a FETCH of levels.

use crate::messages::end_reading;
use oram_levels::{LevelsRequest, fetch_levels, split_levels, store_levels_header};
use oram_wire::WireFault;
use rows::{Page, RowFault, RowWords};
use std::alloc::Global;

/// `levels write fetch TREE FIRST LAST LEAF` and `levels write store TREE FIRST LEAF RECORDS`: writes the body of a request.
fn write(alloc: Global, words: &mut RowWords, page: &mut Page) -> Result<(), RowFault> {
    match words.text() {
        "fetch" => {
            let request = LevelsRequest::Fetch {
                tree: words.byte(),
                first: words.byte(),
                last: words.byte(),
                leaf: words.short(),
            };
            page.bytes(&request.encode(alloc)?);
        }
        "store" => {
            let (tree, first, leaf) = (words.byte(), words.byte(), words.short());
            let records = words.bytes(alloc);
            let request = LevelsRequest::Store {
                tree,
                first,
                leaf,
                records: &records,
            };
            page.bytes(&request.encode(alloc)?);
        }
        _ => return Err(RowFault::NoRow),
    }
    Ok(())
}

/// `levels heads TREE FIRST LAST LEAF`: writes the body of a FETCH of these levels, and the beginning of a STORE from the first of them on.
fn heads(words: &mut RowWords, page: &mut Page) -> Result<(), RowFault> {
    let (tree, first, last, leaf) = (words.byte(), words.byte(), words.byte(), words.short());
    page.bytes(&fetch_levels(tree, first, last, leaf));
    page.bytes(&store_levels_header(tree, first, leaf));
    Ok(())
}

/// `levels read BODY`: reads a body as a request, and writes it.
fn read(body: &[u8], page: &mut Page) -> Result<(), WireFault> {
    match LevelsRequest::decode(body)? {
        LevelsRequest::Fetch {
            tree,
            first,
            last,
            leaf,
        } => {
            page.word("fetch");
            page.number(tree);
            page.number(first);
            page.number(last);
            page.number(leaf);
        }
        LevelsRequest::Store {
            tree,
            first,
            leaf,
            records,
        } => {
            page.word("store");
            page.number(tree);
            page.number(first);
            page.number(leaf);
            page.bytes(records);
        }
    }
    Ok(())
}

/// `levels split PAYLOAD LEN`: writes how many records of this length a payload has, and the records, or that it isn't such a payload.
fn split(alloc: Global, words: &mut RowWords, page: &mut Page) -> Result<(), RowFault> {
    let payload = words.bytes(alloc);
    match split_levels(&payload, words.short() as usize) {
        Some((count, records)) => {
            page.number(count);
            page.bytes(records);
        }
        None => page.word("none"),
    }
    Ok(())
}

/// Answers a row about the messages about levels.
pub fn answer(
    alloc: Global,
    name: &str,
    words: &mut RowWords,
    page: &mut Page,
) -> Result<(), RowFault> {
    match name {
        "write" => write(alloc, words, page),
        "heads" => heads(words, page),
        "read" => {
            let body = words.bytes(alloc);
            let read = read(&body, page);
            end_reading(page, read)
        }
        "split" => split(alloc, words, page),
        _ => Err(RowFault::NoRow),
    }
}
