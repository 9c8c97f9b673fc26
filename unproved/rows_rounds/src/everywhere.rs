//! Rows in which the process of a device ends at each of its actions in turn.

use crate::devices::new_device;
use crate::hosts::{HostPlace, Way};
use crate::keepers::{MemoryKeeper, Room};
use crate::lives::{Found, Life, WRITES};
use oram_host::Server;
use rows::{Page, RowFault, RowWords};
use std::alloc::Global;

/// More actions than any life has.
const MOST_ENDS: u32 = 1_000;

/// Which keepings and which messages processes end at: each `step`th one from number `from` on.
#[derive(Clone, Copy)]
struct Ends {
    from: u64,
    step: u64,
}

impl Ends {
    const ALL: Ends = Ends { from: 0, step: 1 };
}

/// Where a process ends.
#[derive(Clone, Copy)]
pub(crate) enum End {
    /// At a keeping, before it or after it.
    Keeping { at: u64, after: bool },
    /// At a message, before or after the host has carried it out.
    Message { at: u64, after: bool },
}

impl End {
    pub(crate) fn room(self) -> Room {
        match self {
            End::Keeping { at, after } => Room {
                files: at,
                late: after,
            },
            End::Message { .. } => Room::AMPLE,
        }
    }

    pub(crate) fn way(self) -> Way {
        match self {
            End::Keeping { .. } => Way::Honest,
            End::Message { at, after } => Way::Ends { at, after },
        }
    }

    /// Returns the first end of these.
    fn first(ends: Ends) -> End {
        End::Keeping {
            at: ends.from,
            after: false,
        }
    }

    /// Returns the end after this one: first come the keepings, then the messages. There is none after a life in which such a
    /// message never came.
    fn next(self, was_met: bool, ends: Ends) -> Option<End> {
        match self {
            End::Keeping { at, after: false } if was_met => Some(End::Keeping { at, after: true }),
            End::Keeping { at, after: true } => Some(End::Keeping {
                at: at.saturating_add(ends.step),
                after: false,
            }),
            End::Keeping { .. } => Some(End::Message {
                at: ends.from,
                after: false,
            }),
            End::Message { at, after: false } if was_met => Some(End::Message { at, after: true }),
            End::Message { at, after: true } => Some(End::Message {
                at: at.saturating_add(ends.step),
                after: false,
            }),
            End::Message { .. } => None,
        }
    }
}

/// What outlives a process.
#[derive(Drop)]
struct Remains {
    server: Box<Server>,
    file: Vec<u8>,
    /// How many writes had their reply.
    written: u8,
    /// How many writes were kept.
    due: u8,
}

/// What was found in all lives.
#[derive(Clone, Copy, Drop)]
struct Tally {
    /// How many first lives ended early.
    ends: u64,
    /// How many lives between the first one and the last one ended early.
    second_ends: u64,
    lives: u64,
    /// Blocks that lack a write that had its reply.
    lost: u64,
    /// Blocks that have neither zeros nor what was written to them.
    torn: u64,
    /// Blocks that have a write that wasn't kept, or lack one that was.
    other: u64,
}

impl Tally {
    /// Counts what a life found in the first blocks.
    fn count(&mut self, found: &[Found], remains: &Remains) {
        let (written, due) = (usize::from(remains.written), usize::from(remains.due));
        for (i, block) in found.iter().enumerate() {
            self.count_block(*block, i < written, i < due);
        }
    }

    /// Counts what a life found in a block. `is_written` says whether its write had its reply, and `is_due` whether that write
    /// was kept.
    fn count_block(&mut self, block: Found, is_written: bool, is_due: bool) {
        let is_lost = is_written && block != Found::Written;
        let is_other = is_due != (block == Found::Written);
        self.lost = self.lost.saturating_add(u64::from(is_lost));
        self.torn = self.torn.saturating_add(u64::from(block == Found::Torn));
        self.other = self.other.saturating_add(u64::from(is_other));
    }
}

impl Remains {
    /// Puts a copy of the host in a place, and begins a process with what was kept. `room` and `way` say where that process
    /// ends.
    fn begin<'a>(
        &self,
        alloc: Global,
        place: &'a HostPlace,
        room: Room,
        way: Way,
    ) -> Result<Box<Life<'a>>, RowFault> {
        place.put(Box::new(alloc, self.server.copy(alloc)?)?, way);
        let keeper = MemoryKeeper::with(alloc, self.file.clone()?, room);
        Life::begin(alloc, place, keeper)
    }

    /// Returns what a life leaves behind.
    fn after(
        &self,
        place: &HostPlace,
        life: &Life,
        written: u8,
        due: u8,
    ) -> Result<Remains, RowFault> {
        life.keeper.check_memory()?;
        Ok(Remains {
            server: place.take_server()?,
            file: life.keeper.newest.clone()?,
            written,
            due,
        })
    }

    /// Writes the blocks in a life that ends at `end`. Returns what it leaves, and whether it got as far as that end.
    fn write(&self, alloc: Global, round: u8, end: End) -> Result<(Remains, bool), RowFault> {
        let place = HostPlace::new();
        let mut life = self.begin(alloc, &place, end.room(), end.way())?;
        let (written, ended) = life.write_all(alloc, round)?;
        let kept = life.keeper.taken().saturating_mul(u64::from(round));
        let due = u8::try_from(kept.min(u64::from(WRITES)))?;
        let remains = self.after(&place, &life, written, due)?;
        Ok((remains, ended.is_some()))
    }

    /// Reads the blocks in a life that ends at `end`. Returns what it leaves, and whether it got as far as that end.
    fn read(
        &self,
        alloc: Global,
        end: End,
        tally: &mut Tally,
    ) -> Result<(Remains, bool), RowFault> {
        let place = HostPlace::new();
        let mut life = self.begin(alloc, &place, end.room(), end.way())?;
        let mut found = Vec::new(alloc);
        let ended = life.go_on_and_read(alloc, &mut found)?;
        tally.count(&found, self);
        let remains = self.after(&place, &life, self.written, self.due)?;
        Ok((remains, ended.is_some()))
    }

    /// Reads the blocks in a whole life.
    fn read_whole(&self, alloc: Global, tally: &mut Tally) -> Result<(), RowFault> {
        let place = HostPlace::new();
        let mut life = self.begin(alloc, &place, Room::AMPLE, Way::Honest)?;
        let mut found = Vec::new(alloc);
        let ended = life.go_on_and_read(alloc, &mut found)?;
        life.keeper.check_memory()?;
        if ended.is_some() || found.len() != usize::from(WRITES) + 1 {
            return Err(RowFault::NoRow);
        }
        tally.lives = tally.lives.saturating_add(1);
        tally.count(&found, self);
        Ok(())
    }

    /// Reads the blocks in lives that end at each of these ends in turn, and after each of them in a whole life.
    fn read_everywhere(
        &self,
        alloc: Global,
        ends: Ends,
        tally: &mut Tally,
    ) -> Result<(), RowFault> {
        let mut end = End::first(ends);
        for _ in 0..MOST_ENDS {
            let (remains, was_met) = self.read(alloc, end, tally)?;
            tally.second_ends = tally.second_ends.saturating_add(u64::from(was_met));
            remains.read_whole(alloc, tally)?;
            let Some(next) = end.next(was_met, ends) else {
                return Ok(());
            };
            end = next;
        }
        Err(RowFault::NoRow)
    }

    /// Reads the blocks in the lives that come after the first one. Without a step, there is only one, a whole life.
    fn read_after(&self, alloc: Global, step: u64, tally: &mut Tally) -> Result<(), RowFault> {
        match tally.ends.checked_rem(step) {
            Some(from) => self.read_everywhere(alloc, Ends { from, step }, tally),
            None => self.read_whole(alloc, tally),
        }
    }

    /// Writes the blocks in lives that end at each of their actions in turn, and after each of them reads the blocks in further
    /// lives.
    fn write_everywhere(
        &self,
        alloc: Global,
        round: u8,
        step: u64,
        tally: &mut Tally,
    ) -> Result<(), RowFault> {
        let mut end = End::first(Ends::ALL);
        for _ in 0..MOST_ENDS {
            let (remains, was_met) = self.write(alloc, round, end)?;
            tally.ends = tally.ends.saturating_add(u64::from(was_met));
            remains.read_after(alloc, step, tally)?;
            let Some(next) = end.next(was_met, Ends::ALL) else {
                return Ok(());
            };
            end = next;
        }
        Err(RowFault::NoRow)
    }
}

/// `ends_everywhere DEVICE ROUND STEP`: lets a device write three blocks, `ROUND` in each round, in a life that ends at each of
/// its actions in turn: before and after each keeping and each message. After each of these a whole life reads the blocks.
/// With a `STEP` from 1 on, lives that read them and end too come between these two, at each `STEP`th of their keepings and
/// messages. Writes how many first lives and how many lives between ended early, how many whole lives there were, and how
/// many blocks were not as they had to be.
pub(crate) fn ends_everywhere(
    alloc: Global,
    words: &mut RowWords,
    page: &mut Page,
) -> Result<(), RowFault> {
    let (server, file) = new_device(alloc, words)?;
    let round = words.byte();
    let step = words.number();
    let new = Remains {
        server,
        file,
        written: 0,
        due: 0,
    };
    let mut tally = Tally {
        ends: 0,
        second_ends: 0,
        lives: 0,
        lost: 0,
        torn: 0,
        other: 0,
    };
    new.write_everywhere(alloc, round, step, &mut tally)?;
    for (word, count) in [
        ("ends", tally.ends),
        ("second_ends", tally.second_ends),
        ("lives", tally.lives),
        ("lost", tally.lost),
        ("torn", tally.torn),
        ("other", tally.other),
    ] {
        page.word(word);
        page.number(count);
    }
    Ok(())
}
