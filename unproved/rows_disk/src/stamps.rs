//! What a client knows of its host's stamps.

use oram_stamps::{Known, Mismatch, NoteFault, Shown, Stamp, decode_note, encode_note};
use rows::{Page, RowFault, RowWords};
use std::alloc::Global;

/// A process, and the file in which it was kept last.
#[derive(Drop)]
struct Client {
    known: Known,
    note: Vec<u8>,
    check: u64,
}

impl Client {
    /// Keeps the process, which has this check.
    fn keep(&mut self, alloc: Global, check: u64) -> Result<(), RowFault> {
        self.note = encode_note(alloc, &self.known)?;
        self.check = check;
        self.known.keep(check);
        Ok(())
    }

    /// Ends the process, and begins another one with the file.
    fn restart(&mut self, alloc: Global) -> Result<(), RowFault> {
        self.known = match decode_note(alloc, &self.note, self.check) {
            Ok(known) => known,
            Err(NoteFault::OutOfMemory) => return Err(RowFault::OutOfMemory),
            Err(NoteFault::NotOurs) => return Err(RowFault::NoRow),
        };
        Ok(())
    }

    /// Sends a batch, and writes its stamp.
    fn send(&mut self, alloc: Global, page: &mut Page) -> Result<(), RowFault> {
        let stamp = self.known.next_stamp();
        self.known.send(alloc)?;
        page.number(stamp.number);
        page.number(stamp.check);
        Ok(())
    }

    /// Is shown two stamps, and writes whether they may be there.
    fn look_at(&mut self, shown: &Shown, page: &mut Page) {
        match self.known.take_over(shown) {
            Ok(()) => page.word("taken"),
            Err(Mismatch::OlderState) => page.word("older_state"),
            Err(Mismatch::OlderHost) => page.word("older_host"),
        }
    }

    /// Writes whether a batch without STOREs needs no stamp.
    fn write_settled(&self, page: &mut Page) {
        page.word(if self.known.is_settled() {
            "settled"
        } else {
            "unsettled"
        });
    }
}

/// Reads a number and a check as a stamp.
fn stamp_in(words: &mut RowWords) -> Stamp {
    Stamp {
        number: words.number(),
        check: words.number(),
    }
}

/// `stamps life EVENTS`: the client of a new disk is kept with a check (`keep 6`), sends a batch (`sends`), learns that all of it
/// was carried out (`answers`), is shown what the host has begun and done (`shows 2 6 1 5`), or another process begins with the file
/// (`restarts`). `asks` writes whether a batch without STOREs needs no stamp.
fn life(alloc: Global, words: &mut RowWords, page: &mut Page) -> Result<(), RowFault> {
    let mut client = Client {
        known: Known::fresh(alloc)?,
        note: Vec::new(alloc),
        check: 0,
    };
    while !words.is_empty() {
        match words.text() {
            "keep" => client.keep(alloc, words.number())?,
            "sends" => client.send(alloc, page)?,
            "answers" => client.known.settle(),
            "shows" => {
                let shown = Shown {
                    begun: stamp_in(words),
                    done: stamp_in(words),
                };
                client.look_at(&shown, page);
            }
            "restarts" => client.restart(alloc)?,
            "asks" => client.write_settled(page),
            _ => return Err(RowFault::NoRow),
        }
    }
    Ok(())
}

/// Answers a row about stamps.
pub fn answer(
    alloc: Global,
    name: &str,
    words: &mut RowWords,
    page: &mut Page,
) -> Result<(), RowFault> {
    match name {
        "life" => life(alloc, words, page),
        _ => Err(RowFault::NoRow),
    }
}
