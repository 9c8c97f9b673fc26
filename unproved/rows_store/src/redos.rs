//! A redo log over two files in memory.

use crate::batches::{batch_of, patches_in};
use crate::files::{file_in, write_bytes};
use oram_redo::{Bounds, FileKind, FilePair, MemoryPair, Redo, RedoError, SHUT, recover};
use rows::{Page, RowFault, RowWords};
use std::alloc::Global;

/// The bounds of the files of these rows: a log with room for a few entries, and 32 bytes of records.
pub const BOUNDS: Bounds = Bounds {
    log_start: 4,
    log_end: 84,
    records_end: 32,
};

/// Two files, and their log.
#[derive(Drop)]
struct Opened {
    files: MemoryPair,
    redo: Redo,
}

/// The files of the next rows, before their log is read and after it.
#[derive(Drop)]
pub struct Redos {
    files: Option<MemoryPair>,
    opened: Option<Opened>,
}

/// Returns two files whose log has no entries, and which are empty otherwise.
fn begun(alloc: Global) -> Result<MemoryPair, RowFault> {
    let mut files = MemoryPair::new(alloc);
    match files.write_at(FileKind::Log, BOUNDS.log_start, &[SHUT]) {
        Ok(()) => Ok(files),
        Err(_) => Err(RowFault::OutOfMemory),
    }
}

/// Writes why a call was not carried out. Files in memory fail only if memory ran out.
fn write_fault(page: &mut Page, fault: RedoError) -> Result<(), RowFault> {
    match fault {
        RedoError::LogFull | RedoError::Damaged => page.show(&fault),
        RedoError::Memory | RedoError::NoRoom | RedoError::Failed => {
            return Err(RowFault::OutOfMemory);
        }
    }
    Ok(())
}

/// Writes how a call ended.
fn write_end(page: &mut Page, ended: Result<(), RedoError>) -> Result<(), RowFault> {
    match ended {
        Ok(()) => {
            page.word("done");
            Ok(())
        }
        Err(fault) => write_fault(page, fault),
    }
}

/// `redo write FILE AT BYTES`: writes bytes into a file directly, without the redo log.
fn write(
    alloc: Global,
    files: &mut MemoryPair,
    words: &mut RowWords,
    page: &mut Page,
) -> Result<(), RowFault> {
    let file = file_in(words)?;
    let at = words.number();
    let bytes = words.bytes(alloc);
    write_end(page, files.write_at(file, at, &bytes))
}

/// `redo commit AT BYTES AT BYTES ..`: commits a batch of these patches.
fn commit(
    alloc: Global,
    opened: &mut Opened,
    words: &mut RowWords,
    page: &mut Page,
) -> Result<(), RowFault> {
    let patches = patches_in(alloc, words)?;
    let batch = batch_of(alloc, &patches)?;
    let ended = opened.redo.commit(alloc, &mut opened.files, &batch);
    write_end(page, ended)
}

/// `redo loose AT BYTES`: writes a patch that doesn't count yet.
fn loose(
    alloc: Global,
    opened: &mut Opened,
    words: &mut RowWords,
    page: &mut Page,
) -> Result<(), RowFault> {
    let at = words.number();
    let bytes = words.bytes(alloc);
    let ended = opened.redo.write_loose(&mut opened.files, at, &bytes);
    write_end(page, ended)
}

/// `redo restart`: empties the log.
fn restart(opened: &mut Opened, page: &mut Page) -> Result<(), RowFault> {
    let ended = opened.redo.restart(&mut opened.files);
    write_end(page, ended)
}

/// `redo read AT LEN`: writes `LEN` bytes of the records.
fn read(
    alloc: Global,
    opened: &mut Opened,
    words: &mut RowWords,
    page: &mut Page,
) -> Result<(), RowFault> {
    let at = words.number();
    match opened.redo.read(alloc, &mut opened.files, at, words.size()) {
        Ok(bytes) => {
            page.bytes(&bytes);
            Ok(())
        }
        Err(fault) => write_fault(page, fault),
    }
}

/// Answers a row about files whose log was read. `redo file FILE AT LEN` writes `LEN` bytes as they are in a file.
fn answer_opened(
    alloc: Global,
    opened: &mut Opened,
    name: &str,
    words: &mut RowWords,
    page: &mut Page,
) -> Result<(), RowFault> {
    match name {
        "commit" => commit(alloc, opened, words, page),
        "loose" => loose(alloc, opened, words, page),
        "restart" => restart(opened, page),
        "read" => read(alloc, opened, words, page),
        "file" => write_bytes(alloc, &mut opened.files, words, page),
        "write" => write(alloc, &mut opened.files, words, page),
        _ => Err(RowFault::NoRow),
    }
}

impl Redos {
    pub fn new() -> Redos {
        Redos {
            files: None,
            opened: None,
        }
    }

    /// `redo recover`: reads the log of the files, writes its patches to their places, and goes on with this log.
    fn recover(&mut self, alloc: Global, page: &mut Page) -> Result<(), RowFault> {
        let mut files = match (self.files.take(), self.opened.take()) {
            (Some(files), _) => files,
            (None, Some(opened)) => opened.files,
            (None, None) => return Err(RowFault::NoRow),
        };
        match recover(alloc, &mut files, BOUNDS) {
            Ok(redo) => {
                self.opened = Some(Opened { files, redo });
                page.word("done");
                Ok(())
            }
            Err(fault) => {
                self.files = Some(files);
                write_fault(page, fault)
            }
        }
    }

    /// Answers a row about a redo log. `redo new` makes two files whose log has no entries, and which are
    /// empty otherwise.
    pub fn answer(
        &mut self,
        alloc: Global,
        name: &str,
        words: &mut RowWords,
        page: &mut Page,
    ) -> Result<(), RowFault> {
        if name == "new" {
            self.files = Some(begun(alloc)?);
            self.opened = None;
            page.word("done");
            return Ok(());
        }
        if name == "recover" {
            return self.recover(alloc, page);
        }
        match (&mut self.files, &mut self.opened) {
            (_, Some(opened)) => answer_opened(alloc, opened, name, words, page),
            (Some(files), None) if name == "file" => write_bytes(alloc, files, words, page),
            (Some(files), None) if name == "write" => write(alloc, files, words, page),
            _ => Err(RowFault::NoRow),
        }
    }
}
