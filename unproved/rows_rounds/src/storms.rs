//! Rows of many rounds, in which processes end at actions that are drawn at random.

use crate::devices::new_device;
use crate::everywhere::End;
use crate::hosts::{HostPlace, Way};
use crate::keepers::{MemoryKeeper, Room};
use crate::lives::Life;
use crate::plain_arrays::PlainArray;
use oram_bytes::Bytes;
use oram_core::{Command, Reply};
use rows::{Page, RowFault, RowWords};
use std::alloc::Global;

/// More processes than end one after the other without a round.
const MOST_ENDS: u32 = 100;

/// Numbers that a seed determines.
#[derive(Clone, Copy, Drop)]
struct Draws {
    seed: u64,
}

impl Draws {
    /// Returns the next number, below `count`.
    fn below(&mut self, count: u64) -> u64 {
        self.seed = self
            .seed
            .wrapping_mul(6_364_136_223_846_793_005)
            .wrapping_add(1_442_695_040_888_963_407);
        (self.seed >> 33).checked_rem(count).unwrap_or(0)
    }

    /// Returns where the process ends, in half of all cases.
    fn end(&mut self) -> Option<End> {
        let after = self.below(2) == 1;
        match self.below(6) {
            0 => Some(End::Keeping { at: 0, after }),
            1 | 2 => Some(End::Message {
                at: self.below(20),
                after,
            }),
            _ => None,
        }
    }

    fn command(&mut self, alloc: Global, blocks: u32) -> Result<Command, RowFault> {
        let address = u32::try_from(self.below(u64::from(blocks)))?;
        let byte = u8::try_from(self.below(256))?;
        match self.below(5) {
            0 | 1 => Ok(Command::Write(address, Bytes::copy(alloc, &[byte; 16])?)),
            2 => Ok(Command::Discard(address)),
            _ => Ok(Command::Read(address)),
        }
    }

    /// Returns the commands of a round, from one to six.
    fn round(&mut self, alloc: Global, blocks: u32) -> Result<Vec<Command>, RowFault> {
        let count = self.below(6).saturating_add(1);
        let mut commands = Vec::new(alloc);
        for _ in 0..count {
            commands.push(self.command(alloc, blocks)?)?;
        }
        Ok(commands)
    }
}

/// A round, given by the numbers that determine it.
#[derive(Clone, Copy, Drop)]
struct Round {
    draws: Draws,
    /// The ticket of its first command.
    ticket: u64,
}

/// What a device has to hold, and what was counted.
#[derive(Drop)]
struct Storm<'a> {
    place: &'a HostPlace,
    blocks: u32,
    draws: Draws,
    /// The array before the newest round that was kept.
    before: PlainArray,
    newest: Option<Round>,
    ends: u64,
    replies: u64,
    right: u64,
}

impl Storm<'_> {
    /// Counts the replies to the newest round that was kept, and those of them that are the array's.
    fn check(&mut self, alloc: Global, replies: &[Reply]) -> Result<(), RowFault> {
        let mut array = self.before.copy()?;
        if let Some(round) = self.newest {
            let mut draws = round.draws;
            let commands = draws.round(alloc, self.blocks)?;
            let right = array.right(&commands, round.ticket, replies);
            self.right = self.right.saturating_add(right);
        }
        self.replies = self.replies.saturating_add(replies.len() as u64);
        Ok(())
    }

    /// Takes note of a round that was kept in place of the one before.
    fn keep(&mut self, alloc: Global, next: Round) -> Result<(), RowFault> {
        if let Some(round) = self.newest {
            let mut draws = round.draws;
            let commands = draws.round(alloc, self.blocks)?;
            self.before.carry_out(&commands);
        }
        self.newest = Some(next);
        Ok(())
    }

    /// Sets where the process ends from now on, if it does.
    fn prepare(&mut self, life: &mut Life) -> Result<(), RowFault> {
        let (room, way) = match self.draws.end() {
            Some(end) => (end.room(), end.way()),
            None => (Room::AMPLE, Way::Honest),
        };
        life.keeper.set(room);
        self.place.set(way)
    }

    /// Carries out a round. Where the process ends, processes come after it until one has carried out what was kept.
    fn round(&mut self, alloc: Global, life: &mut Life) -> Result<(), RowFault> {
        self.prepare(life)?;
        let draws = self.draws;
        let ticket = life.core.next_ticket();
        let commands = self.draws.round(alloc, self.blocks)?;
        let mut notes = Vec::new(alloc);
        let ended = life.round(alloc, commands, &mut notes)?;
        if life.keeper.taken() > 0 {
            self.keep(alloc, Round { draws, ticket })?;
        }
        match ended {
            Ok(replies) => self.check(alloc, &replies),
            Err(_) => self.recover(alloc, life),
        }
    }

    /// Lets processes begin after one that has ended, until one has carried out what was kept.
    fn recover(&mut self, alloc: Global, life: &mut Life) -> Result<(), RowFault> {
        for _ in 0..MOST_ENDS {
            self.ends = self.ends.saturating_add(1);
            life.next(alloc, Room::AMPLE)?;
            self.prepare(life)?;
            if let Ok(replies) = life.go_on(alloc)? {
                return self.check(alloc, &replies);
            }
        }
        Err(RowFault::NoRow)
    }

    /// Carries out this many rounds, and writes how they went.
    fn run(
        &mut self,
        alloc: Global,
        life: &mut Life,
        rounds: u32,
        page: &mut Page,
    ) -> Result<(), RowFault> {
        for _ in 0..rounds {
            self.round(alloc, life)?;
        }
        life.keeper.check_memory()?;
        page.word("ends");
        page.number(self.ends);
        page.word("replies");
        page.number(self.replies);
        page.word("right");
        page.number(self.right);
        Ok(())
    }
}

/// `storm DEVICE SEED COUNT`: lets a device carry out COUNT rounds, each with one to six commands of all kinds. In half of the
/// rounds the process is to end at one of its first keepings or messages, if it comes that far; the next process goes on with
/// what was kept, and may end too. Writes how many processes have ended, how many replies there were, and how many of them are
/// an array's.
pub(crate) fn run_storm(
    alloc: Global,
    words: &mut RowWords,
    page: &mut Page,
) -> Result<(), RowFault> {
    let (server, file) = new_device(alloc, words)?;
    let draws = Draws {
        seed: words.number(),
    };
    let place = HostPlace::new();
    place.put(server, Way::Honest);
    let keeper = MemoryKeeper::with(alloc, file, Room::AMPLE);
    let mut life = Life::begin(alloc, &place, keeper)?;
    let blocks = life.blocks();
    let mut storm = Storm {
        place: &place,
        blocks,
        draws,
        before: PlainArray::new(alloc, blocks)?,
        newest: None,
        ends: 0,
        replies: 0,
        right: 0,
    };
    storm.run(alloc, &mut life, words.short(), page)
}
