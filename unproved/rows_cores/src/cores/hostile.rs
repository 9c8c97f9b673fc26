//! Answers that a host shouldn't give. Each goes to a copy of the core.

use super::machine::{Machine, reaction_of};
use crate::said::show_reaction;
use oram_bucket::Sealer;
use oram_bytes::{Bytes, Words as Tape};
use oram_core::Core;
use oram_semantics::{Command, Event};
use rows::{Groups, Page, RowFault, RowWords};
use std::alloc::Global;

/// Makes a read with words that are all 0.
fn read_of_zero(alloc: Global, trees: u8) -> Result<Event, RowFault> {
    Ok(Event::Submit {
        session: 3,
        command: Command::Read(0),
        words: Tape::from_vec(vec![in alloc; 0; 2 * usize::from(trees)]?),
    })
}

/// Gives a core an event, and writes its reaction.
fn tell<S: Sealer>(
    alloc: Global,
    core: &mut Core<S>,
    event: &Event,
    page: &mut Page,
) -> Result<(), RowFault> {
    show_reaction(&reaction_of(alloc, core, event)?, page);
    Ok(())
}

/// Gives a core an answer, and then a read, a retry, a loss and a good answer. Writes the reactions.
fn tell_in_turn<S: Sealer>(
    alloc: Global,
    core: &mut Core<S>,
    answer: &[u8],
    page: &mut Page,
) -> Result<(), RowFault> {
    let trees = core.device().trees();
    tell(
        alloc,
        core,
        &Event::Answer(Bytes::copy(alloc, answer)?),
        page,
    )?;
    tell(alloc, core, &read_of_zero(alloc, trees)?, page)?;
    tell(alloc, core, &Event::Retry, page)?;
    tell(alloc, core, &Event::Lost, page)?;
    tell(
        alloc,
        core,
        &Event::Answer(Bytes::copy(alloc, &[0x80])?),
        page,
    )
}

/// Flips one bit of a byte.
fn flip(bytes: &mut [u8], place: usize) {
    if let Some(byte) = bytes.get_mut(place) {
        *byte ^= 1 << (place % 8);
    }
}

impl<S: Sealer + Copy> Machine<S> {
    /// Gives an answer to a copy of the core, and further events after it. Its reactions join the group of those before
    /// if they are the same.
    fn try_answer(
        &self,
        alloc: Global,
        number: usize,
        answer: &[u8],
        groups: &mut Groups,
        page: &mut Page,
    ) -> Result<(), RowFault> {
        let mut core = self.core_again(alloc)?;
        let mut said = Page::new(alloc);
        tell_in_turn(alloc, &mut core, answer, &mut said)?;
        groups.add(number as u64, &said, page);
        Ok(())
    }

    /// `core flips FIRST LAST`: for each byte, gives the core the host's answer with one bit of that byte flipped, and
    /// then a read, a retry, a loss and a good answer. Writes the reactions.
    pub fn flips(
        &mut self,
        alloc: Global,
        words: &mut RowWords,
        page: &mut Page,
    ) -> Result<(), RowFault> {
        let (first, last) = (words.size(), words.size());
        let mut answer = self.answer_of_host(alloc)?;
        if last >= answer.len() {
            return Err(RowFault::NoRow);
        }
        let mut groups = Groups::new(alloc);
        for place in first..last + 1 {
            flip(&mut answer, place);
            self.try_answer(alloc, place, &answer, &mut groups, page)?;
            flip(&mut answer, place);
        }
        groups.end(page);
        Ok(())
    }

    /// `core lengths FIRST LAST`: the same with the host's answer cut off, or filled up with zeros, at each length.
    pub fn lengths(
        &mut self,
        alloc: Global,
        words: &mut RowWords,
        page: &mut Page,
    ) -> Result<(), RowFault> {
        let (first, last) = (words.short(), words.short());
        let whole = self.answer_of_host(alloc)?;
        let mut groups = Groups::new(alloc);
        for len in first as usize..last as usize + 1 {
            let mut answer = whole.as_slice().to_vec(alloc)?;
            answer.resize(len, 0)?;
            self.try_answer(alloc, len, &answer, &mut groups, page)?;
        }
        groups.end(page);
        Ok(())
    }
}
