//! Readers and writers that give or take only a few bytes per call, are interrupted, and end or fail.

use crate::table::RowFault;
use crate::words::RowWords;
use std::alloc::{AllocError, Global};
use std::io;
use std::io::{ErrorKind, Read, Write};

/// How fast a reader or a writer goes on, and how it ends.
#[derive(Drop)]
pub struct Pace {
    /// How many bytes it gives or takes in a call, at most.
    most: usize,
    /// Whether it is interrupted before each call that gives or takes bytes.
    interrupts: bool,
    is_interrupted: bool,
    /// Whether it fails when there are no more bytes or no more room. If not, it ends.
    fails: bool,
    calls: u64,
}

/// Reads the pace from the words `MOST smooth|interrupted ends|fails`.
pub fn pace_in(words: &mut RowWords) -> Result<Pace, RowFault> {
    let most = words.size();
    let interrupts = match words.text() {
        "smooth" => false,
        "interrupted" => true,
        _ => return Err(RowFault::NoRow),
    };
    let fails = match words.text() {
        "ends" => false,
        "fails" => true,
        _ => return Err(RowFault::NoRow),
    };
    Ok(Pace {
        most,
        interrupts,
        is_interrupted: false,
        fails,
        calls: 0,
    })
}

impl Pace {
    /// Makes a pace that gives or takes everything that is asked for in one call.
    pub fn smooth(fails: bool) -> Pace {
        Pace {
            most: usize::MAX,
            interrupts: false,
            is_interrupted: false,
            fails,
            calls: 0,
        }
    }

    /// Counts a call, and returns how many bytes it gives or takes at most, where `ready` is how many there are. Fails
    /// if the call is interrupted, or if nothing is ready and the pace fails at the end.
    fn next(&mut self, ready: usize) -> io::Result<usize> {
        self.calls = self.calls.saturating_add(1);
        self.is_interrupted = self.interrupts && !self.is_interrupted;
        if self.is_interrupted {
            return Err(io::Error::from(ErrorKind::Interrupted));
        }
        if self.fails && ready == 0 {
            return Err(io::Error::from(ErrorKind::BrokenPipe));
        }
        Ok(self.most)
    }
}

/// A reader that gives bytes at a pace.
#[derive(Drop)]
pub struct Source<'a> {
    rest: &'a [u8],
    pace: Pace,
}

impl<'a> Source<'a> {
    pub fn new(bytes: &'a [u8], pace: Pace) -> Source<'a> {
        Source { rest: bytes, pace }
    }

    /// Returns the bytes that it hasn't given yet.
    pub fn rest(&self) -> &'a [u8] {
        self.rest
    }

    /// Returns how many times it was called.
    pub fn calls(&self) -> u64 {
        self.pace.calls
    }
}

impl Read for Source<'_> {
    fn read(&mut self, buf: &mut [u8]) -> io::Result<usize> {
        let most = self.pace.next(self.rest.len())?;
        let count = most.min(buf.len()).min(self.rest.len());
        let (given, rest) = self.rest.split_at(count);
        buf[..count].copy_from_slice(given);
        self.rest = rest;
        Ok(count)
    }
}

/// A writer that takes bytes at a pace, as long as it has room.
#[derive(Drop)]
pub struct Target {
    bytes: Vec<u8>,
    room: usize,
    pace: Pace,
}

impl Target {
    /// Makes a target with all its room, so that writing to it allocates nothing.
    pub fn new(alloc: Global, room: usize, pace: Pace) -> Result<Target, AllocError> {
        Ok(Target {
            bytes: Vec::with_capacity(alloc, room)?,
            room,
            pace,
        })
    }

    /// Returns the bytes that it has taken.
    pub fn bytes(&self) -> &[u8] {
        self.bytes.as_slice()
    }

    /// Returns how many times it was called.
    pub fn calls(&self) -> u64 {
        self.pace.calls
    }
}

impl Write for Target {
    fn write(&mut self, buf: &[u8]) -> io::Result<usize> {
        let room = self.room.saturating_sub(self.bytes.len());
        let most = self.pace.next(room)?;
        let count = most.min(buf.len()).min(room);
        self.bytes.extend_from_slice(&buf[..count])?;
        Ok(count)
    }

    fn flush(&mut self) -> io::Result<()> {
        Ok(())
    }
}
