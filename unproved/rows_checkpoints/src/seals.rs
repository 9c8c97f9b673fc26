//! Sealing and opening of texts.

use oram_summary::{SummaryFault, open, seal};
use rows::{Page, RowFault, RowWords};
use std::alloc::Global;

/// Answers a row about sealed texts: `seal of KEY SALT TEXT` writes the text sealed, and `seal open KEY SEALED` the text that it opens to, or
/// why it doesn't.
pub fn answer(
    alloc: Global,
    name: &str,
    words: &mut RowWords,
    page: &mut Page,
) -> Result<(), RowFault> {
    match name {
        "of" => {
            let (key, salt) = (words.array(alloc), words.array(alloc));
            let text = words.bytes(alloc);
            page.bytes(&seal(alloc, &key, &salt, &text)?);
        }
        "open" => {
            let key = words.array(alloc);
            let sealed = words.bytes(alloc);
            match open(alloc, &key, &sealed) {
                Ok(text) => page.bytes(&text),
                Err(SummaryFault::OutOfMemory) => return Err(RowFault::OutOfMemory),
                Err(fault) => page.show(&fault),
            }
        }
        _ => return Err(RowFault::NoRow),
    }
    Ok(())
}
