//! Tags of messages.

use oram_hmac::{hmac_sha256, is_tag_of};
use rows::{Page, RowFault, RowWords};
use std::alloc::Global;

/// Answers a row about tags: `tag of KEY MESSAGE` writes the tag, and `tag is TAG KEY MESSAGE` whether it is this one.
pub fn answer(
    alloc: Global,
    name: &str,
    words: &mut RowWords,
    page: &mut Page,
) -> Result<(), RowFault> {
    match name {
        "of" => {
            let (key, message) = (words.bytes(alloc), words.bytes(alloc));
            page.bytes(&hmac_sha256(&key, &message));
        }
        "is" => {
            let tag = words.array(alloc);
            let (key, message) = (words.bytes(alloc), words.bytes(alloc));
            page.flag(is_tag_of(&tag, &key, &message));
        }
        _ => return Err(RowFault::NoRow),
    }
    Ok(())
}
