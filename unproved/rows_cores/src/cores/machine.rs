//! A core at work, with its host.

use super::seen::{Seen, show_run};
use crate::commands::event_of;
use crate::said::{show_answered, show_message, show_reaction, show_reason};
use oram_bucket::Sealer;
use oram_bytes::Bytes;
use oram_core::{Core, Parts, PartsFault};
use oram_geometry::Device;
use oram_host::Server;
use oram_semantics::{Event, Reaction};
use oram_wire::ListSink;
use rows::{Page, RowFault, RowWords, host_answer, host_of};
use std::alloc::Global;

/// The most answers that one `drain` gives: more than any row needs.
const MOST_ANSWERS: u32 = 1000;

/// A core with its host, the message that has no answer yet, and everything that has happened so far.
#[derive(Drop)]
pub struct Machine<S: Sealer> {
    sealer: S,
    pub(super) core: Core<S>,
    pub(super) host: Server,
    outstanding: Option<Bytes>,
    /// An answer that was kept for later.
    pub(super) kept: Vec<u8>,
    /// The copy of the host that was kept.
    pub(super) snapshot: Option<Server>,
    events: Vec<Event>,
    seen: Seen,
}

/// Makes the core with these parts; `None` if no core has them.
pub fn core_of<S: Sealer>(
    alloc: Global,
    sealer: S,
    parts: Parts,
) -> Result<Option<Core<S>>, RowFault> {
    match Core::from_parts(alloc, sealer, parts) {
        Ok(core) => Ok(Some(core)),
        Err(PartsFault::Content) => Ok(None),
        Err(PartsFault::OutOfMemory) => Err(RowFault::OutOfMemory),
    }
}

/// Formats a device. Returns its core, and the messages of the formatting. A list of messages refuses one only if memory ran
/// out.
fn formatted<S: Sealer>(
    alloc: Global,
    device: &Device,
    sealer: S,
) -> Result<(Core<S>, Vec<Vec<u8>>), RowFault> {
    let mut sink = ListSink::new(alloc);
    match Core::format(alloc, device.copy(), sealer, &mut sink) {
        Ok(core) => Ok((core, sink.into_bodies())),
        Err(_) => Err(RowFault::OutOfMemory),
    }
}

/// Returns a core's reaction to an event.
pub fn reaction_of<S: Sealer>(
    alloc: Global,
    core: &mut Core<S>,
    event: &Event,
) -> Result<Reaction, RowFault> {
    Ok(core.step(alloc, event)?)
}

/// Returns whether an event ends the wait for an answer.
fn ends_wait(event: &Event) -> bool {
    match event {
        Event::Answer(_) | Event::Lost | Event::Reopen => true,
        Event::Submit { .. } | Event::Retry => false,
    }
}

impl<S: Sealer + Copy> Machine<S> {
    /// Formats a device on a new host.
    pub fn new(alloc: Global, device: &Device, sealer: S) -> Result<Machine<S>, RowFault> {
        let (core, format) = formatted(alloc, device, sealer)?;
        Ok(Machine {
            sealer,
            core,
            host: host_of(alloc, &format)?,
            outstanding: None,
            kept: Vec::new(alloc),
            snapshot: None,
            events: Vec::new(alloc),
            seen: Seen {
                format,
                reactions: Vec::new(alloc),
            },
        })
    }

    /// Returns how many messages the formatting took.
    pub fn messages(&self) -> usize {
        self.seen.format.len()
    }

    /// Makes a core with these parts and the same sealer.
    pub fn core_with(&self, alloc: Global, parts: Parts) -> Result<Option<Core<S>>, RowFault> {
        core_of(alloc, self.sealer, parts)
    }

    /// Rebuilds the core from its parts.
    pub fn core_again(&self, alloc: Global) -> Result<Core<S>, RowFault> {
        match self.core_with(alloc, self.core.parts(alloc)?)? {
            Some(core) => Ok(core),
            None => Err(RowFault::NoRow),
        }
    }

    /// Makes a step of the core.
    fn step(&mut self, alloc: Global, event: Event) -> Result<&Reaction, RowFault> {
        let reaction = reaction_of(alloc, &mut self.core, &event)?;
        if ends_wait(&event) {
            self.outstanding = None;
        }
        if let Some(message) = reaction.sends.last() {
            self.outstanding = Some(Bytes::copy(alloc, message.as_slice())?);
        }
        self.events.push(event)?;
        self.seen.reactions.push(reaction)?;
        match self.seen.reactions.last() {
            Some(reaction) => Ok(reaction),
            None => Err(RowFault::NoRow),
        }
    }

    /// Makes a step and writes the reaction.
    pub fn tell(&mut self, alloc: Global, event: Event, page: &mut Page) -> Result<(), RowFault> {
        show_reaction(self.step(alloc, event)?, page);
        Ok(())
    }

    /// Returns the host's answer to the outstanding message, or no bytes if none is outstanding.
    pub fn answer_of_host(&mut self, alloc: Global) -> Result<Vec<u8>, RowFault> {
        match &self.outstanding {
            Some(message) => host_answer(alloc, &mut self.host, message.as_slice()),
            None => Ok(Vec::new(alloc)),
        }
    }

    /// `core answer`: lets the host answer.
    fn answer(&mut self, alloc: Global, page: &mut Page) -> Result<(), RowFault> {
        let bytes = self.answer_of_host(alloc)?;
        self.tell(alloc, Event::Answer(Bytes::from_vec(bytes)), page)
    }

    /// Lets the host answer up to `count` messages, as long as one is outstanding. If `remakes` is set, rebuilds the
    /// core from its parts before each answer.
    fn answers(
        &mut self,
        alloc: Global,
        count: u32,
        remakes: bool,
        page: &mut Page,
    ) -> Result<(), RowFault> {
        for _ in 0..count {
            if self.outstanding.is_none() {
                break;
            }
            if remakes {
                self.core = self.core_again(alloc)?;
            }
            let bytes = self.answer_of_host(alloc)?;
            let reaction = self.step(alloc, Event::Answer(Bytes::from_vec(bytes)))?;
            show_answered(reaction, page);
        }
        Ok(())
    }

    /// `core late`: the host gets the message, and its answer is lost.
    fn late(&mut self, alloc: Global, page: &mut Page) -> Result<(), RowFault> {
        let _unheard = self.answer_of_host(alloc)?;
        self.tell(alloc, Event::Lost, page)
    }

    /// `core reopen`: rebuilds the core from its parts, and gives it the event `Reopen`.
    fn reopen(&mut self, alloc: Global, page: &mut Page) -> Result<(), RowFault> {
        self.core = self.core_again(alloc)?;
        self.tell(alloc, Event::Reopen, page)
    }

    /// `core times COUNT EVENT`: gives the core an event `COUNT` times, and writes the last reaction.
    fn times(
        &mut self,
        alloc: Global,
        words: &mut RowWords,
        page: &mut Page,
    ) -> Result<(), RowFault> {
        let count = words.short();
        let kind = words.text();
        let rest = words.all();
        for _ in 0..count {
            page.clear();
            let mut part = RowWords::of(rest);
            let event = event_of(alloc, kind, &mut part)?;
            part.check()?;
            self.tell(alloc, event, page)?;
        }
        Ok(())
    }

    /// `core status`: writes the next ticket, how many commands wait, whether the core is idle, whether a store is
    /// outstanding, and why the device failed.
    fn status(&self, page: &mut Page) {
        page.word("next");
        page.number(self.core.next_ticket());
        page.part();
        page.word("waiting");
        page.number(self.core.waiting());
        page.part();
        page.word("idle");
        page.flag(self.core.is_idle());
        page.part();
        page.word("storing");
        page.flag(self.core.is_storing());
        page.part();
        page.word("failure");
        match self.core.failure() {
            Some(reason) => show_reason(reason, page),
            None => page.word("none"),
        }
    }

    /// `core stashes`: writes how many blocks are in the stash of each tree.
    fn stashes(&self, page: &mut Page) {
        for tree in 0..self.core.device().trees() {
            page.number(self.core.stash_len(tree));
        }
    }

    /// `core message`: writes the bytes of the outstanding message, or `none`.
    fn message(&self, page: &mut Page) {
        match &self.outstanding {
            Some(message) => page.bytes(message.as_slice()),
            None => page.word("none"),
        }
    }

    /// `core next`: writes the first FETCHes of the commands that wait, or `none`.
    fn next(&self, alloc: Global, page: &mut Page) -> Result<(), RowFault> {
        let bodies = self.core.next_fetches(alloc)?;
        if bodies.is_empty() {
            page.word("none");
        }
        for body in &bodies {
            show_message(body, page);
        }
        Ok(())
    }

    /// Makes a call that changes nothing. `overhead` writes how many bytes the sealer adds to a bucket.
    fn look(&self, alloc: Global, call: &str, page: &mut Page) -> Result<(), RowFault> {
        match call {
            "status" => self.status(page),
            "stashes" => self.stashes(page),
            "message" => self.message(page),
            "overhead" => page.number(self.core.overhead()),
            "next" => return self.next(alloc, page),
            _ => return self.run(alloc, page),
        }
        Ok(())
    }

    /// Gives the core the event of a call.
    fn event(
        &mut self,
        alloc: Global,
        call: &str,
        words: &mut RowWords,
        page: &mut Page,
    ) -> Result<(), RowFault> {
        let event = event_of(alloc, call, words)?;
        self.tell(alloc, event, page)
    }

    /// `core run`: makes one run of everything that happened, and writes whether it formats the device and reacts as
    /// this core did.
    fn run(&self, alloc: Global, page: &mut Page) -> Result<(), RowFault> {
        let device = self.core.device().copy();
        show_run(alloc, device, self.sealer, &self.events, &self.seen, page)
    }

    /// Makes a call. `drain` lets the host answer until no message is outstanding, and `redrain` does so too, but
    /// rebuilds the core from its parts before each answer.
    pub fn call(
        &mut self,
        alloc: Global,
        call: &str,
        words: &mut RowWords,
        page: &mut Page,
    ) -> Result<(), RowFault> {
        match call {
            "status" | "stashes" | "message" | "overhead" | "next" | "run" => {
                self.look(alloc, call, page)
            }
            "keep" | "kept" | "same" | "tamper" | "swap" | "snapshot" | "restore" => {
                self.meddle(alloc, call, words, page)
            }
            "answer" => self.answer(alloc, page),
            "answers" => self.answers(alloc, words.short(), false, page),
            "drain" => self.answers(alloc, MOST_ANSWERS, false, page),
            "redrain" => self.answers(alloc, MOST_ANSWERS, true, page),
            "late" => self.late(alloc, page),
            "reopen" => self.reopen(alloc, page),
            "times" => self.times(alloc, words, page),
            "flips" => self.flips(alloc, words, page),
            "lengths" => self.lengths(alloc, words, page),
            "parts" => self.parts(alloc, words, page),
            "put" => self.put(alloc, words, page),
            _ => self.event(alloc, call, words, page),
        }
    }
}

impl<S: Sealer> Machine<S> {
    /// Returns what was seen.
    pub fn seen(&self) -> &Seen {
        &self.seen
    }

    /// Returns what was seen, and drops the rest.
    pub fn into_seen(self) -> Seen {
        self.seen
    }
}
