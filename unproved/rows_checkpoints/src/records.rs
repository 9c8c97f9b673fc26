//! RECORDS of a moment.

use crate::messages::end_reading;
use oram_checkpoints::{View, ViewedRecords};
use oram_records::RecordsRequest;
use oram_wire::WireFault;
use rows::{Page, RowFault, RowWords};
use std::alloc::Global;

/// Reads a moment from words: `now`, or the number of a checkpoint.
fn view_in(words: &mut RowWords) -> View {
    if words.takes("now") {
        View::Now
    } else {
        View::Checkpoint(words.number())
    }
}

/// `records write VIEW TREE FIRST COUNT`: writes the body of a request for the records of so many nodes of a tree, from the first one on.
fn write(alloc: Global, words: &mut RowWords, page: &mut Page) -> Result<(), RowFault> {
    let view = view_in(words);
    let records = RecordsRequest {
        tree: words.byte(),
        first: words.short(),
        count: words.short(),
    };
    let request = ViewedRecords { view, records };
    page.bytes(&request.encode(alloc)?);
    Ok(())
}

/// `records read BODY`: reads a body as a request, and writes it.
fn read(body: &[u8], page: &mut Page) -> Result<(), WireFault> {
    let ViewedRecords { view, records } = ViewedRecords::decode(body)?;
    match view {
        View::Now => page.word("now"),
        View::Checkpoint(number) => page.number(number),
    }
    page.number(records.tree);
    page.number(records.first);
    page.number(records.count);
    Ok(())
}

/// Answers a row about RECORDS.
pub fn answer(
    alloc: Global,
    name: &str,
    words: &mut RowWords,
    page: &mut Page,
) -> Result<(), RowFault> {
    match name {
        "write" => write(alloc, words, page),
        "read" => {
            let body = words.bytes(alloc);
            let read = read(&body, page);
            end_reading(page, read)
        }
        _ => Err(RowFault::NoRow),
    }
}
