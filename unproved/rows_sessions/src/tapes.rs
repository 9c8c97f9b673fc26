//! Rows of tapes.

use oram_session::{ChaChaTape, ListTape, Tape};
use rows::{Page, RowFault, RowWords};
use std::alloc::Global;

/// Draws the words of a ticket from any tape.
fn drawn<T: Tape>(
    alloc: Global,
    tape: &mut T,
    ticket: u64,
    count: usize,
) -> Result<Vec<u64>, RowFault> {
    Ok(tape.draw(alloc, ticket, count)?)
}

/// `list_words TICKET COUNT WORDS`: writes `COUNT` words for a ticket from the tape of a list.
pub(crate) fn list_words(
    alloc: Global,
    words: &mut RowWords,
    page: &mut Page,
) -> Result<(), RowFault> {
    let (ticket, count) = (words.number(), words.size());
    let mut tape = ListTape {
        words: words.numbers(alloc),
    };
    for word in drawn(alloc, &mut tape, ticket, count)?.iter() {
        page.number(*word);
    }
    Ok(())
}

/// `chacha_words KEY TREES TICKET COUNT`: the same from a tape of the stream cipher. Writes each word in
/// hexadecimal.
pub(crate) fn chacha_words(
    alloc: Global,
    words: &mut RowWords,
    page: &mut Page,
) -> Result<(), RowFault> {
    let mut tape = ChaChaTape {
        key: words.array(alloc),
        trees: words.byte(),
    };
    let (ticket, count) = (words.number(), words.size());
    for word in drawn(alloc, &mut tape, ticket, count)?.iter() {
        page.bytes(&word.to_be_bytes());
    }
    Ok(())
}
