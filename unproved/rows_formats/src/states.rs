//! Cores at work with a bucket host, and the state files that are kept of them.

use crate::cores::AnyCore;
use crate::fault_text::show_fault;
use crate::files::{core_in, write_fault};
use crate::sealers::sealing_in;
use oram_bytes::{Bytes, Words as WordList};
use oram_core::{Command, Event, Parts, Pending, Reaction, Reply, ReplyBody};
use oram_host::Server;
use rows::{Page, RowFault, RowWords, device_in, flip_in, host_answer, swap_in};
use std::alloc::Global;

/// The core of the next rows, its host, and the message that has no answer yet.
#[derive(Drop)]
pub struct States {
    core: Option<AnyCore>,
    server: Server,
    outstanding: Option<Bytes>,
    /// The core that was never saved, which gets the same events.
    twin: Option<AnyCore>,
    /// Whether the two have ever done different things.
    is_unlike: bool,
}

/// Returns whether two cores did the same, byte for byte.
fn are_alike(one: &Reaction, other: &Reaction) -> bool {
    one.note == other.note && one.replies == other.replies && one.sends == other.sends
}

/// `core read SESSION ADDRESS WORDS`, `core write SESSION ADDRESS BYTES WORDS` and
/// `core discard SESSION ADDRESS WORDS`: returns the event of this command.
fn command_in(alloc: Global, name: &str, words: &mut RowWords) -> Result<Event, RowFault> {
    let session = words.short();
    let address = words.short();
    let command = match name {
        "read" => Command::Read(address),
        "write" => Command::Write(address, Bytes::from_vec(words.bytes(alloc))),
        "discard" => Command::Discard(address),
        _ => return Err(RowFault::NoRow),
    };
    Ok(Event::Submit {
        session,
        command,
        words: WordList::from_vec(words.numbers(alloc)),
    })
}

fn write_reply(page: &mut Page, reply: &Reply) {
    page.word("reply");
    page.number(reply.session);
    page.number(reply.ticket);
    match &reply.body {
        ReplyBody::Data(bytes) => page.bytes(bytes.as_slice()),
        ReplyBody::Done => page.word("done"),
        ReplyBody::Failed => page.word("failed"),
    }
}

fn write_replies(page: &mut Page, replies: &[Reply]) {
    for reply in replies {
        write_reply(page, reply);
    }
}

/// Writes a command that waits: its session, its kind, its address and its words.
fn write_pending(page: &mut Page, pending: &Pending) {
    page.number(pending.session);
    page.word(match &pending.command {
        Command::Read(_) => "read",
        Command::Write(..) => "write",
        Command::Discard(_) => "discard",
    });
    page.number(pending.command.address());
    for word in pending.words.as_slice() {
        page.number(*word);
    }
}

/// `core counts`: writes the bytes that the sealer adds, the tickets, the next nonce, and how many entries the table
/// has.
fn write_counts(page: &mut Page, overhead: usize, parts: &Parts) {
    page.number(overhead);
    page.number(parts.tickets);
    page.number(parts.nonce);
    page.number(parts.table.len());
}

/// `core stash`: writes how many blocks each tree has in its stash.
fn write_stashes(page: &mut Page, parts: &Parts) {
    page.number(parts.trees.len());
    page.word("trees");
    for tree in &parts.trees {
        page.number(tree.stash.len());
    }
}

/// `core work`: writes the entry that is outstanding, whether its message counts as lost, and how many bytes of data
/// are held.
fn write_work(page: &mut Page, parts: &Parts) {
    page.number(parts.entry_number);
    page.word(if parts.stalled { "stalled" } else { "sent" });
    page.number(parts.held_data.len());
}

/// `core waiting`: writes the commands without a reply.
fn write_waiting(page: &mut Page, parts: &Parts) {
    page.number(parts.waiting.len());
    for pending in &parts.waiting {
        write_pending(page, pending);
    }
}

/// `core failure`: writes why the core failed.
fn write_failure(page: &mut Page, parts: &Parts) {
    match parts.failure {
        Some(why) => page.show(&why),
        None => page.word("none"),
    }
}

impl States {
    pub fn new(alloc: Global) -> States {
        States {
            core: None,
            server: Server::new(alloc),
            outstanding: None,
            twin: None,
            is_unlike: false,
        }
    }

    fn core(&self) -> Result<&AnyCore, RowFault> {
        self.core.as_ref().ok_or(RowFault::NoRow)
    }

    /// `core format SEALER SIZES`: formats a device on a new host, or writes why there is no device.
    fn format(
        &mut self,
        alloc: Global,
        words: &mut RowWords,
        page: &mut Page,
    ) -> Result<(), RowFault> {
        let sealing = sealing_in(alloc, words)?;
        match device_in(words) {
            Ok(device) => {
                self.server = Server::new(alloc);
                self.outstanding = None;
                let core = AnyCore::format(alloc, device, sealing, &mut self.server)?;
                self.core = Some(core);
                self.twin = None;
                self.is_unlike = false;
                page.word("formatted");
            }
            Err(fault) => show_fault(page, Some(fault.number()), &fault),
        }
        Ok(())
    }

    /// `core open SEALER FILE`: goes on with the core of a file.
    fn open(
        &mut self,
        alloc: Global,
        words: &mut RowWords,
        page: &mut Page,
    ) -> Result<(), RowFault> {
        let sealing = sealing_in(alloc, words)?;
        let file = words.bytes(alloc);
        match core_in(alloc, sealing, &file)? {
            Ok(core) => {
                self.core = Some(core);
                self.outstanding = None;
                page.word("good");
            }
            Err(fault) => write_fault(page, Some(fault)),
        }
        Ok(())
    }

    /// Goes on with a core that was read back, and keeps the one that was never saved.
    fn go_on_with(&mut self, core: AnyCore) {
        let saved = self.core.replace(core);
        if self.twin.is_none() {
            self.twin = saved;
        }
    }

    /// `core again SEALER`: saves the core, and goes on with the one that is read back. The message on its way stays
    /// outstanding. The core that was never saved gets the same events from then on, and has to do the same.
    fn again(
        &mut self,
        alloc: Global,
        words: &mut RowWords,
        page: &mut Page,
    ) -> Result<(), RowFault> {
        let sealing = sealing_in(alloc, words)?;
        let file = self.core()?.file(alloc)?;
        match core_in(alloc, sealing, &file)? {
            Ok(core) => {
                self.go_on_with(core);
                page.word("read back");
            }
            Err(fault) => write_fault(page, Some(fault)),
        }
        Ok(())
    }

    /// Gives the core an event, and returns what it does.
    fn step(&mut self, alloc: Global, event: &Event) -> Result<Reaction, RowFault> {
        let Some(core) = &mut self.core else {
            return Err(RowFault::NoRow);
        };
        let mut reaction = core.step(alloc, event)?;
        if let Some(twin) = &mut self.twin {
            let other = twin.step(alloc, event)?;
            self.is_unlike |= !are_alike(&reaction, &other);
        }
        let sent = reaction.sends.pop();
        if sent.is_some() || matches!(event, Event::Answer(_) | Event::Lost | Event::Reopen) {
            self.outstanding = sent;
        }
        Ok(reaction)
    }

    /// Gives the core an event, and writes its note and the replies.
    fn tell(&mut self, alloc: Global, event: &Event, page: &mut Page) -> Result<(), RowFault> {
        let reaction = self.step(alloc, event)?;
        page.show(&reaction.note);
        write_replies(page, &reaction.replies);
        if self.is_unlike {
            page.word("unlike the core that was never saved");
        }
        Ok(())
    }

    /// Returns the event that the host answers the outstanding message.
    fn answer_of_host(&mut self, alloc: Global) -> Result<Event, RowFault> {
        let Some(message) = &self.outstanding else {
            return Err(RowFault::NoRow);
        };
        let answer = host_answer(alloc, &mut self.server, message.as_slice())?;
        Ok(Event::Answer(Bytes::from_vec(answer)))
    }

    /// `core drain`: lets the host answer until no message is outstanding, and writes the replies.
    fn drain(&mut self, alloc: Global, page: &mut Page) -> Result<(), RowFault> {
        for _ in 0..u64::MAX {
            if self.outstanding.is_none() {
                break;
            }
            let event = self.answer_of_host(alloc)?;
            let reaction = self.step(alloc, &event)?;
            write_replies(page, &reaction.replies);
        }
        Ok(())
    }

    /// Answers a row about what is kept of the core. `core message` writes the message that it sent last.
    fn kept(&self, alloc: Global, name: &str, page: &mut Page) -> Result<(), RowFault> {
        let core = self.core()?;
        let parts = core.parts(alloc)?;
        match name {
            "message" => page.bytes(parts.message.as_slice()),
            "counts" => write_counts(page, core.overhead(), &parts),
            "stash" => write_stashes(page, &parts),
            "work" => write_work(page, &parts),
            "waiting" => write_waiting(page, &parts),
            "failure" => write_failure(page, &parts),
            _ => return Err(RowFault::NoRow),
        }
        Ok(())
    }

    /// Gives the core the event that a row names.
    fn event(
        &mut self,
        alloc: Global,
        name: &str,
        words: &mut RowWords,
        page: &mut Page,
    ) -> Result<(), RowFault> {
        let event = match name {
            "answer" => self.answer_of_host(alloc)?,
            "raw" => Event::Answer(Bytes::from_vec(words.bytes(alloc))),
            "lost" => Event::Lost,
            // The host gets the message, and its answer is lost.
            "late" => {
                let _unheard = self.answer_of_host(alloc)?;
                Event::Lost
            }
            "retry" => Event::Retry,
            "reopen" => Event::Reopen,
            _ => command_in(alloc, name, words)?,
        };
        self.tell(alloc, &event, page)
    }

    /// Answers a row about a core. `core tamper TREE NODE PLACE` flips a bit of a byte in a record of the host, and writes
    /// whether there is such a byte. `core swap TREE NODE TREE NODE` swaps two records, and writes whether there are two that
    /// can be swapped.
    pub fn answer(
        &mut self,
        alloc: Global,
        name: &str,
        words: &mut RowWords,
        page: &mut Page,
    ) -> Result<(), RowFault> {
        match name {
            "format" => return self.format(alloc, words, page),
            "open" => return self.open(alloc, words, page),
            "drain" => return self.drain(alloc, page),
            "again" => return self.again(alloc, words, page),
            "tamper" => page.flag(flip_in(&mut self.server, words)),
            "swap" => page.flag(swap_in(&mut self.server, words)),
            "file" => page.bytes(&self.core()?.file(alloc)?),
            "message" | "counts" | "stash" | "work" | "waiting" | "failure" => {
                return self.kept(alloc, name, page);
            }
            _ => return self.event(alloc, name, words, page),
        }
        Ok(())
    }
}
