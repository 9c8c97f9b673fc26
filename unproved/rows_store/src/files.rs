//! Two files in memory.

use oram_pair::Identity;
use oram_redo::{FileKind, FilePair, MemoryPair};
use oram_store::create;
use rows::{Page, RowFault, RowWords};
use std::alloc::Global;

/// The identity of new files. No answer shows it.
pub const IDENTITY: Identity = Identity([0x5a; 16]);

/// Returns the files of a new store.
pub fn created(alloc: Global) -> Result<MemoryPair, RowFault> {
    let mut files = MemoryPair::new(alloc);
    match create(&mut files, &IDENTITY) {
        Ok(()) => Ok(files),
        Err(_) => Err(RowFault::OutOfMemory),
    }
}

/// Reads the next word as one of the two files.
pub fn file_in(words: &mut RowWords) -> Result<FileKind, RowFault> {
    match words.text() {
        "records" => Ok(FileKind::Records),
        "log" => Ok(FileKind::Log),
        _ => Err(RowFault::NoRow),
    }
}

/// Writes the bytes of a file that the words `FILE AT LEN` name.
pub fn write_bytes(
    alloc: Global,
    files: &mut MemoryPair,
    words: &mut RowWords,
    page: &mut Page,
) -> Result<(), RowFault> {
    let file = file_in(words)?;
    let at = words.number();
    let mut bytes = Vec::new(alloc);
    match files.read_onto(file, at, words.size(), &mut bytes) {
        Ok(()) => page.bytes(&bytes),
        Err(_) => return Err(RowFault::OutOfMemory),
    }
    Ok(())
}
