//! Lists of bytes and of words on the heap.

use oram_bytes::{Bytes, Words as WordList};
use rows::{Page, RowFault, RowWords};
use std::alloc::Global;

/// `list bytes BYTES`: writes how many bytes there are, whether there are none, the bytes, and how many the vector has.
fn bytes(alloc: Global, words: &mut RowWords, page: &mut Page) -> Result<(), RowFault> {
    let list = Bytes::from_vec(words.bytes(alloc));
    page.number(list.len());
    page.flag(list.is_empty());
    page.bytes(list.as_slice());
    page.number(list.into_vec().len());
    Ok(())
}

/// `list same BYTES BYTES`: writes whether a list is equal to a copy of another.
fn same(alloc: Global, words: &mut RowWords, page: &mut Page) -> Result<(), RowFault> {
    let list = Bytes::from_vec(words.bytes(alloc));
    let other = words.bytes(alloc);
    page.flag(Bytes::copy(alloc, &other)? == list);
    Ok(())
}

/// Writes numbers one after the other.
fn write_numbers(page: &mut Page, numbers: &[u64]) {
    for number in numbers {
        page.number(*number);
    }
}

/// `list words NUMBERS`: writes how many numbers there are, whether there are none, the numbers, and how many the
/// vector has.
fn numbers(alloc: Global, words: &mut RowWords, page: &mut Page) -> Result<(), RowFault> {
    let list = WordList::from_vec(words.numbers(alloc));
    page.number(list.len());
    page.flag(list.is_empty());
    write_numbers(page, list.as_slice());
    page.number(list.into_vec().len());
    Ok(())
}

/// `list alike COUNT NUMBERS`: writes whether the first `COUNT` numbers are equal to a copy of the others.
fn alike(alloc: Global, words: &mut RowWords, page: &mut Page) -> Result<(), RowFault> {
    let count = words.size();
    let numbers = words.numbers(alloc);
    if count > numbers.len() {
        return Err(RowFault::NoRow);
    }
    let (first, others) = numbers.as_slice().split_at(count);
    let list = WordList::from_vec(first.to_vec(alloc)?);
    page.flag(WordList::copy(alloc, others)? == list);
    Ok(())
}

/// Answers a row about lists.
pub fn answer(
    alloc: Global,
    name: &str,
    words: &mut RowWords,
    page: &mut Page,
) -> Result<(), RowFault> {
    match name {
        "bytes" => bytes(alloc, words, page),
        "same" => same(alloc, words, page),
        "words" => numbers(alloc, words, page),
        "alike" => alike(alloc, words, page),
        _ => Err(RowFault::NoRow),
    }
}
