//! Connections to a device of four blocks of four bytes. Its export has the name `disk`.

use crate::arrivals::Unseen;
use crate::endings::{with_memory, write_ended};
use crate::stopping_disk;
use crate::watches::Stays;
use oram_nbd::{Arrived, MemDisk, NbdFault, serve, transmit};
use rows::{Pace, Page, RowFault, RowWords, Source, Target};
use std::alloc::Global;
use std::io;
use std::io::{BufReader, Read};

/// The most bytes that a client receives.
const ROOM: usize = 65_536;

/// What a client sent, and what it received.
#[derive(Drop)]
pub struct Connections {
    said: Vec<u8>,
    replies: Vec<u8>,
}

/// How a connection ended, and the writer that has what the client received.
type Talk = (Result<u64, NbdFault>, Target);

/// Serves a client that sends what `reader` gives, and has room for `room` bytes.
fn talked<R: Read + Arrived>(
    alloc: Global,
    reader: &mut R,
    room: usize,
    pace: Pace,
) -> Result<Talk, RowFault> {
    let mut target = Target::new(alloc, room, pace)?;
    let mut disk = MemDisk::new(alloc, 4, 4)?;
    let ended = serve(
        alloc,
        reader,
        &mut target,
        &mut disk,
        b"disk",
        &mut Stays::on(),
    );
    Ok((with_memory(ended, target.bytes())?, target))
}

/// Reads the pace of a stream, which `ends` or `fails` when it can't go on.
fn pace_of(words: &mut RowWords) -> Result<Pace, RowFault> {
    match words.text() {
        "ends" => Ok(Pace::smooth(false)),
        "fails" => Ok(Pace::smooth(true)),
        _ => Err(RowFault::NoRow),
    }
}

fn write_talk(page: &mut Page, talk: &Talk) -> Result<(), RowFault> {
    write_ended(page, talk.0)?;
    page.bytes(talk.1.bytes());
    Ok(())
}

/// `nbd options COUNT HEAD`: a client sends the option `HEAD` `COUNT` times. Writes how its connection ends, and how
/// many bytes it receives.
fn options(alloc: Global, words: &mut RowWords, page: &mut Page) -> Result<(), RowFault> {
    let count = words.short();
    let head = words.bytes(alloc);
    let mut said = vec![in alloc; 0, 0, 0, 3]?;
    for _ in 0..count {
        said.extend_from_slice(&head)?;
    }
    let mut source = Unseen {
        reader: Source::new(&said, Pace::smooth(false)),
    };
    let talk = talked(alloc, &mut source, ROOM, Pace::smooth(true))?;
    write_ended(page, talk.0)?;
    page.number(talk.1.bytes().len());
    Ok(())
}

/// `nbd passes HEAD COUNT REST`: a client sends the requests `HEAD`, then `COUNT` bytes, then `REST`. Writes how its
/// connection ends, and what it receives.
fn passes(alloc: Global, words: &mut RowWords, page: &mut Page) -> Result<(), RowFault> {
    let head = words.bytes(alloc);
    let count = words.number();
    let rest = words.bytes(alloc);
    let mut reader = Unseen {
        reader: head
            .as_slice()
            .chain(io::repeat(7).take(count))
            .chain(rest.as_slice()),
    };
    let mut target = Target::new(alloc, ROOM, Pace::smooth(true))?;
    let mut disk = MemDisk::new(alloc, 4, 4)?;
    let ended = transmit(alloc, &mut reader, &mut target, &mut disk, &mut Stays::on());
    write_ended(page, with_memory(ended, target.bytes())?)?;
    page.bytes(target.bytes());
    Ok(())
}

impl Connections {
    pub fn new(alloc: Global) -> Connections {
        Connections {
            said: Vec::new(alloc),
            replies: Vec::new(alloc),
        }
    }

    /// `nbd talk SAID`: a client sends `SAID` and no more. Writes how its connection ends, and what it receives.
    fn talk(
        &mut self,
        alloc: Global,
        words: &mut RowWords,
        page: &mut Page,
    ) -> Result<(), RowFault> {
        self.said = words.bytes(alloc);
        let mut source = Unseen {
            reader: Source::new(&self.said, Pace::smooth(false)),
        };
        let talk = talked(alloc, &mut source, ROOM, Pace::smooth(true))?;
        self.replies = talk.1.bytes().to_vec(alloc)?;
        write_talk(page, &talk)
    }

    /// `nbd ahead`: the same with a reader that reads ahead.
    fn ahead(&self, alloc: Global, page: &mut Page) -> Result<(), RowFault> {
        let Ok(mut reader) = BufReader::new(alloc, self.said.as_slice()) else {
            return Err(RowFault::OutOfMemory);
        };
        let talk = talked(alloc, &mut reader, ROOM, Pace::smooth(true))?;
        write_talk(page, &talk)
    }

    /// Cuts off the connection after the client has sent `len` bytes. Returns how it ends, and how many bytes the
    /// client receives. These have to be a beginning of what it received for all of its bytes.
    fn cut(
        &self,
        alloc: Global,
        len: usize,
        pace: Pace,
    ) -> Result<(Result<u64, NbdFault>, usize), RowFault> {
        let Some(said) = self.said.get(..len) else {
            return Err(RowFault::NoRow);
        };
        let mut source = Unseen {
            reader: Source::new(said, pace),
        };
        let (ended, target) = talked(alloc, &mut source, ROOM, Pace::smooth(true))?;
        if !self.replies.as_slice().starts_with(target.bytes()) {
            return Err(RowFault::NoRow);
        }
        Ok((ended, target.bytes().len()))
    }

    /// `nbd cuts FROM TO`, `nbd breaks FROM TO`: a client's connection ends, or fails, after it has sent a number of
    /// its bytes, from `FROM` up to but not including `TO`. Writes how the connection ends, and how many bytes the
    /// client receives; or `not alike` if that isn't the same for all these numbers.
    fn cuts(
        &self,
        alloc: Global,
        fails: bool,
        words: &mut RowWords,
        page: &mut Page,
    ) -> Result<(), RowFault> {
        let from = words.size();
        let wanted = self.cut(alloc, from, Pace::smooth(fails))?;
        for len in from..words.size() {
            if self.cut(alloc, len, Pace::smooth(fails))? != wanted {
                page.word("not alike");
                return Ok(());
            }
        }
        write_ended(page, wanted.0)?;
        page.number(wanted.1);
        Ok(())
    }

    /// Returns whether a connection to a client with room for `room` bytes ends because there is no more room, after
    /// the client has received that many.
    fn is_full(&self, alloc: Global, room: usize, pace: Pace) -> Result<bool, RowFault> {
        let mut source = Unseen {
            reader: Source::new(&self.said, Pace::smooth(false)),
        };
        let (ended, target) = talked(alloc, &mut source, room, pace)?;
        Ok(ended == Err(NbdFault::Write) && self.replies.get(..room) == Some(target.bytes()))
    }

    /// `nbd rooms FROM TO ends|fails`: tries every amount of room from `FROM` up to but not including `TO`. It writes
    /// whether each client received that many bytes, and its connection then ended because there was no more room.
    fn rooms(&self, alloc: Global, words: &mut RowWords, page: &mut Page) -> Result<(), RowFault> {
        let from = words.size();
        let to = words.size();
        let ending = words.text();
        for room in from..to {
            let pace = pace_of(&mut RowWords::of(ending))?;
            if !self.is_full(alloc, room, pace)? {
                page.word("no");
                return Ok(());
            }
        }
        page.word("yes");
        Ok(())
    }

    /// Answers a row about connections.
    pub fn answer(
        &mut self,
        alloc: Global,
        name: &str,
        words: &mut RowWords,
        page: &mut Page,
    ) -> Result<(), RowFault> {
        match name {
            "talk" => self.talk(alloc, words, page),
            "ahead" => self.ahead(alloc, page),
            "cuts" => self.cuts(alloc, false, words, page),
            "breaks" => self.cuts(alloc, true, words, page),
            "rooms" => self.rooms(alloc, words, page),
            "options" => options(alloc, words, page),
            "passes" => passes(alloc, words, page),
            "stops" => stopping_disk::stops(alloc, words, page),
            "together" => stopping_disk::together(alloc, words, page),
            "range" => stopping_disk::range(alloc, words, page),
            _ => Err(RowFault::NoRow),
        }
    }
}
