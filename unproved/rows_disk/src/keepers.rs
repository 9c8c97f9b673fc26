//! The head of a disk, and its keys.

use oram_client::{
    DiskKey, Head, KeyCheck, Salt, SealerKind, disk_identity, head_in, key_check, keys_for,
    sealer_key, tape_key, title_of,
};
use rows::{Page, RowFault, RowWords};
use std::alloc::Global;

fn sealer_in(words: &mut RowWords) -> Result<SealerKind, RowFault> {
    match words.text() {
        "plain" => Ok(SealerKind::Plain),
        "chacha20" => Ok(SealerKind::ChaCha20),
        _ => Err(RowFault::NoRow),
    }
}

/// Writes a salt, a key check and a sealer.
fn write_head(page: &mut Page, head: &Head) {
    page.bytes(&head.salt.0);
    page.bytes(&head.key_check.0);
    page.show(&head.sealer);
}

/// `disk title SALT CHECK SEALER`: writes the title of a disk with this head.
fn title(alloc: Global, words: &mut RowWords, page: &mut Page) -> Result<(), RowFault> {
    let head = Head {
        salt: Salt(words.array(alloc)),
        key_check: KeyCheck(words.array(alloc)),
        sealer: sealer_in(words)?,
    };
    page.bytes(&title_of(&head));
    Ok(())
}

/// `disk titled TITLE`: writes the head in a title.
fn titled(alloc: Global, words: &mut RowWords, page: &mut Page) {
    match head_in(&words.bytes(alloc)) {
        Some(head) => write_head(page, &head),
        None => page.word("none"),
    }
}

/// `disk keys KEY SALT`: writes the sealer's key, the tape's key, the key check and the identity.
fn keys(alloc: Global, words: &mut RowWords, page: &mut Page) -> Result<(), RowFault> {
    let key = DiskKey(words.array(alloc));
    let salt = Salt(words.array(alloc));
    page.bytes(&sealer_key(&key, &salt).0);
    page.bytes(&tape_key(&key, &salt).0);
    page.bytes(&key_check(&key, &salt).0);
    page.bytes(&disk_identity(&key, &salt).0);
    Ok(())
}

/// `disk opens KEY SALT CHECK`: opens a disk with this salt and key check. Writes the sealer's key, the tape's key and
/// the identity, or why it doesn't open.
fn opens(alloc: Global, words: &mut RowWords, page: &mut Page) -> Result<(), RowFault> {
    let key = DiskKey(words.array(alloc));
    let head = Head {
        salt: Salt(words.array(alloc)),
        key_check: KeyCheck(words.array(alloc)),
        sealer: SealerKind::ChaCha20,
    };
    match keys_for(&key, &head) {
        Ok(keys) => {
            page.bytes(&keys.sealer.0);
            page.bytes(&keys.tape.0);
            page.bytes(&keys.identity.0);
        }
        Err(fault) => page.show(&fault),
    }
    Ok(())
}

/// `disk head KEY SALT SEALER OTHER`: writes the head of a disk that is formatted with `KEY`, and whether the key
/// `OTHER` opens it.
fn head(alloc: Global, words: &mut RowWords, page: &mut Page) -> Result<(), RowFault> {
    let key = DiskKey(words.array(alloc));
    let salt = Salt(words.array(alloc));
    let head = Head::new(&key, salt, sealer_in(words)?);
    write_head(page, &head);
    match keys_for(&DiskKey(words.array(alloc)), &head) {
        Ok(_) => page.word("opens"),
        Err(fault) => page.show(&fault),
    }
    Ok(())
}

/// Answers a row about what is kept of a disk.
pub fn answer(
    alloc: Global,
    name: &str,
    words: &mut RowWords,
    page: &mut Page,
) -> Result<(), RowFault> {
    match name {
        "title" => title(alloc, words, page),
        "titled" => {
            titled(alloc, words, page);
            Ok(())
        }
        "keys" => keys(alloc, words, page),
        "opens" => opens(alloc, words, page),
        "head" => head(alloc, words, page),
        _ => Err(RowFault::NoRow),
    }
}
