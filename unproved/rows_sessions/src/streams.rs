//! Rows of links over a reader and a writer.

use crate::ends::{LimitedWriter, RowReader};
use crate::faults::tell_outcome;
use oram_session::{Link, StreamLink};
use rows::{Page, RowFault, RowWords};
use std::alloc::Global;

/// `stream READER WRITER BODIES`: calls a link with each of the bodies. Writes the outcome of each call, how many calls
/// had a fault, what was sent, and with how many writes and flushes.
pub(crate) fn stream(alloc: Global, words: &mut RowWords, page: &mut Page) -> Result<(), RowFault> {
    let given = RowReader::read(alloc, words)?;
    let mut sheet = LimitedWriter::read(alloc, words)?;
    call_all(alloc, given, &mut sheet, words, page)?;
    tell_sent(&sheet, page)
}

/// Calls a link over a reader and a writer with one body after the other.
fn call_all(
    alloc: Global,
    given: RowReader,
    sheet: &mut LimitedWriter,
    words: &mut RowWords,
    page: &mut Page,
) -> Result<(), RowFault> {
    let mut link = StreamLink::new(alloc, given, sheet);
    for _ in 0..u64::MAX {
        if words.is_empty() {
            break;
        }
        let body = words.bytes(alloc);
        tell_outcome(page, link.call(alloc, &body))?;
        page.word("/");
    }
    page.word("faults");
    page.number(link.faults());
    Ok(())
}

/// Writes what a writer has taken, and how many writes and flushes there were.
fn tell_sent(sheet: &LimitedWriter, page: &mut Page) -> Result<(), RowFault> {
    page.word("sent");
    page.bytes(sheet.text()?);
    page.word("writes");
    page.number(sheet.writes);
    page.word("flushes");
    page.number(sheet.flushes);
    Ok(())
}
