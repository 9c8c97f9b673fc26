//! The values at the keys of a TOML document.

use oram_cli::{
    InputFault, address_at, count_at, has_only, key_at, name_at, number_at, sealer_in, table_of,
};
use rows::{Page, RowFault, RowWords};
use std::alloc::Global;
use toml::Table;

/// Returns what was read. If it was bad, writes `bad` instead.
pub fn read_or_bad<T: Drop>(
    read: Result<T, InputFault>,
    page: &mut Page,
) -> Result<Option<T>, RowFault> {
    match read {
        Ok(value) => Ok(Some(value)),
        Err(InputFault::Bad) => {
            page.word("bad");
            Ok(None)
        }
        Err(InputFault::OutOfMemory) => Err(RowFault::OutOfMemory),
    }
}

/// `document TEXT`: reads the document of the rows below, and writes whether the text is one.
pub fn document(
    alloc: Global,
    document: &mut Option<Table>,
    words: &mut RowWords,
    page: &mut Page,
) -> Result<(), RowFault> {
    let text = words.lines(alloc);
    let read = read_or_bad(table_of(alloc, text.as_str()), page)?;
    if read.is_some() {
        page.word("read");
    }
    *document = read;
    Ok(())
}

/// `at KIND KEY`: writes the value at the key, if it is of that kind. A `sealer` is read from its two keys
/// together.
pub fn at(document: Option<&Table>, words: &mut RowWords, page: &mut Page) -> Result<(), RowFault> {
    let Some(table) = document else {
        return Err(RowFault::NoRow);
    };
    match words.text() {
        "name" => put_text(name_at(table, words.text()), page),
        "address" => put_text(address_at(table, words.text()), page),
        "number" => put_number(number_at(table, words.text()), page),
        "count" => put_number(count_at(table, words.text()), page),
        "key" => put_key(key_at(table, words.text()), page),
        "sealer" => put_sealer(sealer_in(table), page),
        _ => Err(RowFault::NoRow),
    }
}

fn put_text(read: Result<&str, InputFault>, page: &mut Page) -> Result<(), RowFault> {
    if let Some(text) = read_or_bad(read, page)? {
        page.word(text);
    }
    Ok(())
}

fn put_number(read: Result<u64, InputFault>, page: &mut Page) -> Result<(), RowFault> {
    if let Some(number) = read_or_bad(read, page)? {
        page.number(number);
    }
    Ok(())
}

fn put_key(read: Result<[u8; 32], InputFault>, page: &mut Page) -> Result<(), RowFault> {
    if let Some(key) = read_or_bad(read, page)? {
        page.bytes(&key);
    }
    Ok(())
}

fn put_sealer(read: Result<Option<[u8; 32]>, InputFault>, page: &mut Page) -> Result<(), RowFault> {
    match read_or_bad(read, page)? {
        Some(Some(key)) => page.bytes(&key),
        Some(None) => page.word("plain"),
        None => {}
    }
    Ok(())
}

/// `only KEY ..`: writes whether the document has no other keys.
pub fn only(
    alloc: Global,
    document: Option<&Table>,
    words: &mut RowWords,
    page: &mut Page,
) -> Result<(), RowFault> {
    let Some(table) = document else {
        return Err(RowFault::NoRow);
    };
    page.flag(has_only(table, &words.texts(alloc)));
    Ok(())
}
