//! Sealers, which hide bytes from the host.

use oram_bucket::{ChaChaSeal, OpenFault, PlainSeal, Sealer};
use rows::{Page, RowFault, RowWords};
use std::alloc::{AllocError, Global};

/// One of the sealers that rows name.
#[derive(Clone, Copy)]
pub enum Sealing {
    Plain(PlainSeal),
    ChaCha(ChaChaSeal),
}

/// Reads a sealer: `plain`, or a key of 32 bytes for ChaCha20.
pub fn sealing_in(alloc: Global, words: &mut RowWords) -> Result<Sealing, RowFault> {
    let word = words.text();
    if word == "plain" {
        return Ok(Sealing::Plain(PlainSeal));
    }
    let mut part = RowWords::of(word);
    let key = part.array(alloc);
    part.check()?;
    Ok(Sealing::ChaCha(ChaChaSeal { key }))
}

/// Opens sealed bytes, and writes the result.
pub fn write_opened<S: Sealer>(
    alloc: Global,
    sealer: &S,
    sealed: &[u8],
    page: &mut Page,
) -> Result<(), RowFault> {
    match sealer.open(alloc, sealed) {
        Ok(plain) => page.bytes(&plain),
        Err(OpenFault::OutOfMemory) => return Err(RowFault::OutOfMemory),
        Err(fault) => page.show(&fault),
    }
    Ok(())
}

/// `seal close SEALER NONCE BYTES`: writes the bytes sealed with a nonce.
fn close(alloc: Global, words: &mut RowWords, page: &mut Page) -> Result<(), RowFault> {
    let sealing = sealing_in(alloc, words)?;
    let nonce = words.number();
    let plain = words.bytes(alloc);
    let sealed = match &sealing {
        Sealing::Plain(sealer) => sealer.seal(alloc, nonce, &plain)?,
        Sealing::ChaCha(sealer) => sealer.seal(alloc, nonce, &plain)?,
    };
    page.bytes(&sealed);
    Ok(())
}

/// `seal open SEALER BYTES`: opens sealed bytes, and writes the result.
fn open(alloc: Global, words: &mut RowWords, page: &mut Page) -> Result<(), RowFault> {
    let sealing = sealing_in(alloc, words)?;
    let sealed = words.bytes(alloc);
    match &sealing {
        Sealing::Plain(sealer) => write_opened(alloc, sealer, &sealed, page),
        Sealing::ChaCha(sealer) => write_opened(alloc, sealer, &sealed, page),
    }
}

/// Returns the bytes 0, 1, 2 and so on; after 250 comes 0 again.
fn counted(alloc: Global, len: usize) -> Result<Vec<u8>, AllocError> {
    (0..len).map(|place| (place % 251) as u8).collect(alloc)
}

/// Seals bytes after another byte, with a sealer of any kind. Writes whether the sealer opens what it sealed, how many
/// bytes it adds, and how many bytes there are then.
fn write_law<S: Sealer>(
    alloc: Global,
    sealer: &S,
    plain: &[u8],
    page: &mut Page,
) -> Result<(), RowFault> {
    let mut sealed = Vec::new(alloc);
    sealed.push(7)?;
    sealer.seal_to(alloc, plain.len() as u64, plain, &mut sealed)?;
    let opened = match sealer.open(alloc, sealed.get(1..).unwrap_or(&[])) {
        Ok(opened) => opened.as_slice() == plain,
        Err(OpenFault::OutOfMemory) => return Err(RowFault::OutOfMemory),
        Err(OpenFault::Broken) => false,
    };
    page.flag(opened);
    page.number(sealer.overhead());
    page.number(sealed.len());
    Ok(())
}

/// `seal again SEALER LENGTH`: seals `LENGTH` bytes after another byte, and opens them. Writes whether they are the
/// same, how many bytes the sealer adds, and how many bytes there are then.
fn again(alloc: Global, words: &mut RowWords, page: &mut Page) -> Result<(), RowFault> {
    let sealing = sealing_in(alloc, words)?;
    let plain = counted(alloc, words.size())?;
    match &sealing {
        Sealing::Plain(sealer) => write_law(alloc, sealer, &plain, page),
        Sealing::ChaCha(sealer) => write_law(alloc, sealer, &plain, page),
    }
}

/// Answers a row about sealers.
pub fn answer(
    alloc: Global,
    name: &str,
    words: &mut RowWords,
    page: &mut Page,
) -> Result<(), RowFault> {
    match name {
        "close" => close(alloc, words, page),
        "open" => open(alloc, words, page),
        "again" => again(alloc, words, page),
        _ => Err(RowFault::NoRow),
    }
}
