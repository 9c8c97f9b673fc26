//! Whole lives of a device: its process ends, and another one goes on from what was kept.

use crate::hosts::{HostLink, HostPlace};
use crate::keepers::{MemoryKeeper, Room};
use oram_bucket::PlainSeal;
use oram_bytes::Bytes;
use oram_core::{Command, Core, Note, Reply, ReplyBody};
use oram_rounds::{
    KeptCore, KeptCoreFault, OneByOne, RoundFault, RoundLink, decode_kept, keep, perform,
    record_len, resume, submit_all,
};
use oram_session::{ChaChaTape, has_no_work};
use rows::RowFault;
use std::alloc::Global;

/// How many blocks are written. They are blocks 1, 2 and 3, each filled with its number. Block 0 is not written.
pub(crate) const WRITES: u8 = 3;

/// The session of all commands.
const SESSION: u32 = 0;

/// The link of a process to the host at a place.
pub(crate) type LifeLink<'a> = RoundLink<OneByOne<HostLink<'a>>>;

/// A process of the client, and what its next one begins with. It is in a box, so that a function that has one has only one
/// value to drop, and is proved faster.
#[derive(Drop)]
pub(crate) struct Life<'a> {
    place: &'a HostPlace,
    pub(crate) core: Core<PlainSeal>,
    pub(crate) link: LifeLink<'a>,
    pub(crate) keeper: MemoryKeeper,
}

/// What a block has, as a process reads it.
#[derive(Clone, Copy, PartialEq, Eq)]
pub(crate) enum Found {
    Zeros,
    /// What was written to it.
    Written,
    Torn,
}

/// Returns what was kept in a file.
fn kept_in(alloc: Global, file: &[u8]) -> Result<KeptCore<PlainSeal>, RowFault> {
    match decode_kept(alloc, PlainSeal, file, &[]) {
        Ok(kept) => Ok(kept),
        Err(KeptCoreFault::OutOfMemory) => Err(RowFault::OutOfMemory),
        Err(_) => Err(RowFault::NoRow),
    }
}

/// Returns a round's replies, or why there are none. A row has no answer if memory ran out.
fn row_end<T: Drop>(ended: Result<T, RoundFault>) -> Result<Result<T, RoundFault>, RowFault> {
    if matches!(ended, Err(RoundFault::OutOfMemory)) {
        return Err(RowFault::OutOfMemory);
    }
    Ok(ended)
}

/// Makes a link for a core to the host at a place, which begins with these messages as the STOREs that are kept. There is
/// none if they aren't STOREs for its device.
pub(crate) fn link_for<'a>(
    alloc: Global,
    place: &'a HostPlace,
    core: &Core<PlainSeal>,
    stores: Vec<Vec<u8>>,
) -> Option<LifeLink<'a>> {
    let inner = OneByOne {
        link: HostLink::new(place),
    };
    let device = core.device().copy();
    RoundLink::with_kept(alloc, inner, device, record_len(core), stores)
}

/// Makes the core and the link of a process that begins with this file.
fn begun<'a>(
    alloc: Global,
    place: &'a HostPlace,
    file: &[u8],
) -> Result<(Core<PlainSeal>, LifeLink<'a>), RowFault> {
    let KeptCore { stores, core, .. } = kept_in(alloc, file)?;
    match link_for(alloc, place, &core, stores) {
        Some(link) => Ok((core, link)),
        None => Err(RowFault::NoRow),
    }
}

impl<'a> Life<'a> {
    /// Begins a process with the newest file of a keeper, over the host at a place. It doesn't go on with its commands yet.
    pub(crate) fn begin(
        alloc: Global,
        place: &'a HostPlace,
        keeper: MemoryKeeper,
    ) -> Result<Box<Life<'a>>, RowFault> {
        let (core, link) = begun(alloc, place, &keeper.newest)?;
        let life = Life {
            place,
            core,
            link,
            keeper,
        };
        Ok(Box::new(alloc, life)?)
    }

    /// Ends the process, and begins the next one with what was kept, whose keeper has this room.
    pub(crate) fn next(&mut self, alloc: Global, room: Room) -> Result<(), RowFault> {
        self.keeper.check_memory()?;
        self.keeper.set(room);
        let (core, link) = begun(alloc, self.place, &self.keeper.newest)?;
        self.core = core;
        self.link = link;
        Ok(())
    }

    /// Returns how many blocks the device has.
    pub(crate) fn blocks(&self) -> u32 {
        let device = self.core.device();
        if device.trees() == 0 {
            return 0;
        }
        device.blocks_in(0)
    }

    /// Carries out commands in one round. Notes what the core says to each, and returns the replies, or why there are none.
    pub(crate) fn round(
        &mut self,
        alloc: Global,
        commands: Vec<Command>,
        notes: &mut Vec<Note>,
    ) -> Result<Result<Vec<Reply>, RoundFault>, RowFault> {
        if !has_no_work(&self.core) {
            return Err(RowFault::NoRow);
        }
        let trees = self.core.device().trees();
        let key = [0; 32];
        let mut tape = ChaChaTape { key, trees };
        let submitted = submit_all(alloc, &mut self.core, &mut tape, SESSION, commands)?;
        *notes = submitted.notes;
        let Some(reaction) = submitted.begun else {
            return Ok(Ok(Vec::new(alloc)));
        };
        row_end(perform(
            alloc,
            &mut self.core,
            &mut self.link,
            &mut self.keeper,
            reaction,
        ))
    }

    /// Carries out what waits.
    pub(crate) fn go_on(
        &mut self,
        alloc: Global,
    ) -> Result<Result<Vec<Reply>, RoundFault>, RowFault> {
        row_end(resume(alloc, &mut self.core, &mut self.link, &mut self.keeper))
    }

    /// Keeps the process as it is, without a round.
    pub(crate) fn keep(&mut self, alloc: Global) -> Result<Result<(), RoundFault>, RowFault> {
        row_end(keep(alloc, &mut self.core, &mut self.link, &mut self.keeper))
    }

    /// Writes the blocks from `first` to `last` in one round. Each must be done.
    fn write(
        &mut self,
        alloc: Global,
        first: u8,
        last: u8,
    ) -> Result<Result<(), RoundFault>, RowFault> {
        let len = self.core.device().block_bytes();
        let mut commands = Vec::new(alloc);
        for number in first..=last {
            let bytes = Bytes::from_vec(vec![in alloc; number; len]?);
            commands.push(Command::Write(u32::from(number), bytes))?;
        }
        let count = commands.len();
        let mut notes = Vec::new(alloc);
        match self.round(alloc, commands, &mut notes)? {
            Err(fault) => Ok(Err(fault)),
            Ok(replies) if are_done(&replies, count) => Ok(Ok(())),
            Ok(_) => Err(RowFault::NoRow),
        }
    }

    /// Writes the blocks in rounds of `round` commands. Returns how many writes had their reply, and why the others had none.
    pub(crate) fn write_all(
        &mut self,
        alloc: Global,
        round: u8,
    ) -> Result<(u8, Option<RoundFault>), RowFault> {
        let mut written = 0;
        for _ in 0..WRITES {
            if written >= WRITES || round == 0 {
                break;
            }
            let last = WRITES.min(written.saturating_add(round));
            match self.write(alloc, written.saturating_add(1), last)? {
                Ok(()) => written = last,
                Err(fault) => return Ok((written, Some(fault))),
            }
        }
        Ok((written, None))
    }

    /// Reads a block in a round of its own.
    fn read(&mut self, alloc: Global, number: u8) -> Result<Result<Found, RoundFault>, RowFault> {
        let mut commands = Vec::new(alloc);
        commands.push(Command::Read(u32::from(number)))?;
        let mut notes = Vec::new(alloc);
        match self.round(alloc, commands, &mut notes)? {
            Err(fault) => Ok(Err(fault)),
            Ok(replies) => Ok(Ok(found_in(&replies, number)?)),
        }
    }

    /// Reads the blocks that are written and then block 0, as far as nothing fails, and returns why the next one isn't read.
    pub(crate) fn read_all(
        &mut self,
        alloc: Global,
        found: &mut Vec<Found>,
    ) -> Result<Option<RoundFault>, RowFault> {
        for number in [1, 2, 3, 0] {
            match self.read(alloc, number)? {
                Ok(block) => found.push(block)?,
                Err(fault) => return Ok(Some(fault)),
            }
        }
        Ok(None)
    }

    /// Carries out what waits, and reads the blocks.
    pub(crate) fn go_on_and_read(
        &mut self,
        alloc: Global,
        found: &mut Vec<Found>,
    ) -> Result<Option<RoundFault>, RowFault> {
        match self.go_on(alloc)? {
            Ok(_) => self.read_all(alloc, found),
            Err(fault) => Ok(Some(fault)),
        }
    }
}

/// Returns whether there are `count` replies, and all say that their command is done.
fn are_done(replies: &[Reply], count: usize) -> bool {
    replies.len() == count && replies.iter().all(|reply| reply.body == ReplyBody::Done)
}

/// Returns what the one reply to a read says about a block that may be filled with its number.
fn found_in(replies: &[Reply], number: u8) -> Result<Found, RowFault> {
    let [
        Reply {
            body: ReplyBody::Data(bytes),
            ..
        },
    ] = replies
    else {
        return Err(RowFault::NoRow);
    };
    let bytes = bytes.as_slice();
    if bytes.iter().all(|byte| *byte == 0) {
        Ok(Found::Zeros)
    } else if bytes.iter().all(|byte| *byte == number) {
        Ok(Found::Written)
    } else {
        Ok(Found::Torn)
    }
}
