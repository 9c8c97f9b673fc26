//! The first bytes of a bucket file and of its log.

use oram_layout::{Front, LETTERS, read_front};
use oram_pair::{Identity, front_of, identity_in};
use rows::{Page, RowFault, RowWords};
use std::alloc::Global;

/// Reads the next word as an identity. Fails if it doesn't have 16 bytes.
fn identity_word(alloc: Global, words: &mut RowWords) -> Result<Identity, RowFault> {
    let bytes = words.bytes(alloc);
    let mut identity = [0; 16];
    if bytes.len() != identity.len() {
        return Err(RowFault::NoRow);
    }
    identity.copy_from_slice(&bytes);
    Ok(Identity(identity))
}

fn write_ours(page: &mut Page, identity: &Identity) {
    page.word("ours");
    page.bytes(&identity.0);
}

/// `front read BYTES`: writes what kind of file begins with these bytes.
fn read(alloc: Global, words: &mut RowWords, page: &mut Page) -> Result<(), RowFault> {
    let bytes = words.bytes(alloc);
    match read_front(&bytes) {
        Front::Ours(identity) => write_ours(page, &identity),
        other => page.show(&other),
    }
    Ok(())
}

/// `front read_log BYTES`: writes whether a log begins with these bytes.
fn read_log(alloc: Global, words: &mut RowWords, page: &mut Page) -> Result<(), RowFault> {
    let bytes = words.bytes(alloc);
    match identity_in(&LETTERS.log, &bytes) {
        Some(identity) => write_ours(page, &identity),
        None => page.word("none"),
    }
    Ok(())
}

/// Answers a row about fronts. `front buckets IDENTITY` writes the front of a bucket file, and `front log IDENTITY`
/// that of its log.
pub fn answer(
    alloc: Global,
    name: &str,
    words: &mut RowWords,
    page: &mut Page,
) -> Result<(), RowFault> {
    match name {
        "buckets" => {
            page.bytes(&front_of(&LETTERS.records, &identity_word(alloc, words)?));
            Ok(())
        }
        "log" => {
            page.bytes(&front_of(&LETTERS.log, &identity_word(alloc, words)?));
            Ok(())
        }
        "read" => read(alloc, words, page),
        "read_log" => read_log(alloc, words, page),
        _ => Err(RowFault::NoRow),
    }
}
