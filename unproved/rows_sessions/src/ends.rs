//! Readers and writers that end or fail where a row says.

use rows::{RowFault, RowWords};
use std::alloc::Global;
use std::io;
use std::io::{ErrorKind, Read, Write};

/// A reader of the bytes in a row.
#[derive(Drop)]
pub(crate) struct RowReader {
    bytes: Vec<u8>,
    /// How many bytes were read.
    at: usize,
    /// How many bytes it gives at most at once.
    step: usize,
    fails: bool,
}

impl RowReader {
    /// Makes a reader from the next words: `whole BYTES`, `ends LEN BYTES` or `fails LEN BYTES`. The last two give the
    /// first `LEN` bytes, one at a time, and then end or fail.
    pub(crate) fn read(alloc: Global, words: &mut RowWords) -> Result<RowReader, RowFault> {
        let (len, fails) = match words.text() {
            "whole" => (None, false),
            "ends" => (Some(words.size()), false),
            "fails" => (Some(words.size()), true),
            _ => return Err(RowFault::NoRow),
        };
        let mut bytes = words.bytes(alloc);
        if let Some(len) = len {
            bytes.truncate(len);
        }
        Ok(RowReader {
            bytes,
            at: 0,
            step: if len.is_some() { 1 } else { usize::MAX },
            fails,
        })
    }

    /// Makes a reader of all these bytes.
    pub(crate) fn of(bytes: Vec<u8>) -> RowReader {
        RowReader {
            bytes,
            at: 0,
            step: usize::MAX,
            fails: false,
        }
    }

    /// Goes back to the first byte.
    pub(crate) fn rewind(&mut self) {
        self.at = 0;
    }
}

impl Read for RowReader {
    fn read(&mut self, buf: &mut [u8]) -> io::Result<usize> {
        let mut rest = self.bytes.get(self.at..).unwrap_or(&[]);
        if rest.is_empty() && self.fails {
            return Err(io::Error::from(ErrorKind::Other));
        }
        let most = buf.len().min(self.step);
        let taken = rest.read(&mut buf[..most])?;
        self.at = self.at.saturating_add(taken);
        Ok(taken)
    }
}

/// A writer that keeps what was written.
#[derive(Drop)]
pub(crate) struct LimitedWriter {
    bytes: Vec<u8>,
    room: usize,
    /// How many bytes it takes at most at once.
    step: usize,
    flush_fails: bool,
    pub(crate) writes: u64,
    pub(crate) flushes: u64,
    lacks_memory: bool,
}

impl LimitedWriter {
    /// Makes a writer that takes everything.
    pub(crate) fn ample(alloc: Global) -> LimitedWriter {
        LimitedWriter {
            bytes: Vec::new(alloc),
            room: usize::MAX,
            step: usize::MAX,
            flush_fails: false,
            writes: 0,
            flushes: 0,
            lacks_memory: false,
        }
    }

    /// Makes a writer from the next words: `ample`; `room LEN`, which takes a byte at a time and fails after `LEN`
    /// bytes; or `unflushed`, whose flush fails.
    pub(crate) fn read(alloc: Global, words: &mut RowWords) -> Result<LimitedWriter, RowFault> {
        let mut sheet = LimitedWriter::ample(alloc);
        match words.text() {
            "ample" => {}
            "room" => {
                sheet.room = words.size();
                sheet.step = 1;
            }
            "unflushed" => sheet.flush_fails = true,
            _ => return Err(RowFault::NoRow),
        }
        Ok(sheet)
    }

    /// Returns what was written. Fails if memory ran out for it.
    pub(crate) fn text(&self) -> Result<&[u8], RowFault> {
        if self.lacks_memory {
            return Err(RowFault::OutOfMemory);
        }
        Ok(&self.bytes)
    }

    /// Turns the writer into what was written. Fails if memory ran out for it.
    pub(crate) fn into_text(self) -> Result<Vec<u8>, RowFault> {
        if self.lacks_memory {
            return Err(RowFault::OutOfMemory);
        }
        Ok(self.bytes)
    }
}

impl Write for LimitedWriter {
    fn write(&mut self, buf: &[u8]) -> io::Result<usize> {
        self.writes = self.writes.saturating_add(1);
        if self.bytes.len() >= self.room {
            return Err(io::Error::from(ErrorKind::StorageFull));
        }
        let taken = buf.len().min(self.step);
        if self.bytes.extend_from_slice(&buf[..taken]).is_err() {
            self.lacks_memory = true;
            return Err(io::Error::from(ErrorKind::OutOfMemory));
        }
        Ok(taken)
    }

    fn flush(&mut self) -> io::Result<()> {
        self.flushes = self.flushes.saturating_add(1);
        if self.flush_fails {
            return Err(io::Error::from(ErrorKind::Other));
        }
        Ok(())
    }
}
