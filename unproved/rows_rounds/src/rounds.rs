//! Rows of one device, whose processes carry out rounds of commands and are kept from row to row.

use crate::devices::{new_device, standing};
use crate::hosts::{HostPlace, Sent, Way};
use crate::keepers::{MemoryKeeper, Room};
use crate::kept_files::{
    fields_of, tell_cut_fields, tell_cut_files, tell_other_records, tell_other_sealer,
    tell_read_file, text_before, text_of,
};
use crate::lives::{Life, link_for};
use crate::plain_arrays::{many_commands, right_replies};
use oram_bytes::Bytes;
use oram_core::{Command, Note, Reply, ReplyBody};
use oram_host::Server;
use oram_rounds::RoundFault;
use oram_session::Link;
use rows::{Page, RowFault, RowWords};
use std::alloc::Global;

/// The newest process of a device.
#[derive(Drop)]
pub(crate) struct Rounds<'a> {
    place: &'a HostPlace,
    life: Option<Box<Life<'a>>>,
}

/// How many files were kept and how many messages were sent before a row.
#[derive(Clone, Copy, Drop)]
struct Before {
    kept: u64,
    sent: Sent,
}

impl<'a> Rounds<'a> {
    pub(crate) fn new(place: &'a HostPlace) -> Rounds<'a> {
        Rounds { place, life: None }
    }

    /// Makes the call of this name on the process.
    pub(crate) fn make(
        &mut self,
        alloc: Global,
        call: &str,
        words: &mut RowWords,
        page: &mut Page,
    ) -> Result<(), RowFault> {
        match call {
            "device" => self.device(alloc, words, page),
            "next_process" => self.next_process(alloc, page),
            "host" => self.host(alloc, words, page),
            "spoil" => self.spoil(words, page),
            "forget" => self.forget(alloc, page),
            "keeper" => self.keeper(words, page),
            "round" => self.round(alloc, words, page),
            "many" => self.many(alloc, words, page),
            "go_on" => self.go_on(alloc, page),
            "keep" => self.keep(alloc, page),
            "stores" => self.stores(page),
            "faults" => self.faults(page),
            "order" => self.order(page),
            "takes" => self.takes(alloc, words, page),
            "noted" => self.noted(alloc, words, page),
            "recorded" => self.recorded(alloc, words, page),
            _ => self.file_row(alloc, call, page),
        }
    }

    /// Returns the process. Fails if there is none.
    fn life(&mut self) -> Result<&mut Life<'a>, RowFault> {
        match &mut self.life {
            Some(life) => Ok(life),
            None => Err(RowFault::NoRow),
        }
    }

    /// `device DEVICE`: formats a device on a new host, and begins its first process. The host is honest and the keeper keeps
    /// all files.
    fn device(
        &mut self,
        alloc: Global,
        words: &mut RowWords,
        page: &mut Page,
    ) -> Result<(), RowFault> {
        let (server, file) = new_device(alloc, words)?;
        self.place.put(server, Way::Honest);
        let keeper = MemoryKeeper::with(alloc, file, Room::AMPLE);
        let life = Life::begin(alloc, self.place, keeper)?;
        page.word(standing(&life.core));
        self.life = Some(life);
        Ok(())
    }

    /// `next_process`: ends the process, and begins the next one with what was kept, over the same host. Writes how the core
    /// is, how many commands wait in it, and how many STOREs are kept. The host is honest and the keeper keeps all files.
    fn next_process(&mut self, alloc: Global, page: &mut Page) -> Result<(), RowFault> {
        self.place.set(Way::Honest)?;
        let life = self.life()?;
        life.next(alloc, Room::AMPLE)?;
        page.word(standing(&life.core));
        page.word("waiting");
        page.number(life.core.waiting());
        self.stores(page)
    }

    /// `host WAY`: sets what becomes of the messages, which count from 0 again.
    fn host(
        &mut self,
        alloc: Global,
        words: &mut RowWords,
        page: &mut Page,
    ) -> Result<(), RowFault> {
        self.place.set(Way::read(alloc, words)?)?;
        page.word("set");
        Ok(())
    }

    /// `spoil TREE NODE OFFSET`: flips a bit of a byte that the host keeps.
    fn spoil(&mut self, words: &mut RowWords, page: &mut Page) -> Result<(), RowFault> {
        let mut server = self.place.take_server()?;
        page.flag(server.flip(words.number(), words.number(), words.number()));
        self.place.put(server, Way::Honest);
        Ok(())
    }

    /// `forget`: puts a new server in the host's place, which keeps nothing.
    fn forget(&mut self, alloc: Global, page: &mut Page) -> Result<(), RowFault> {
        self.place
            .put(Box::new(alloc, Server::new(alloc))?, Way::Honest);
        page.word("set");
        Ok(())
    }

    /// `keeper KEEPER`: sets when the keeper fails, and files count from 0 again.
    fn keeper(&mut self, words: &mut RowWords, page: &mut Page) -> Result<(), RowFault> {
        let room = Room::read(words)?;
        self.life()?.keeper.set(room);
        page.word("set");
        Ok(())
    }

    fn before(&mut self) -> Result<Before, RowFault> {
        let kept = self.life()?.keeper.kept;
        let sent = self.place.sent()?;
        Ok(Before { kept, sent })
    }

    /// Writes how many files were kept and how many messages were sent since then.
    fn tell_since(&mut self, before: Before, page: &mut Page) -> Result<(), RowFault> {
        let now = self.before()?;
        self.life()?.keeper.check_memory()?;
        page.word("kept");
        page.number(now.kept.saturating_sub(before.kept));
        page.word("fetches");
        page.number(now.sent.fetches.saturating_sub(before.sent.fetches));
        page.word("stores");
        page.number(now.sent.stores.saturating_sub(before.sent.stores));
        Ok(())
    }

    /// `round COMMAND ..`: carries out commands in one round: `write ADDRESS BYTES`, `read ADDRESS` or `discard ADDRESS`.
    /// Writes what the core says to each that it refuses, then the replies to the others, or why there are none.
    fn round(
        &mut self,
        alloc: Global,
        words: &mut RowWords,
        page: &mut Page,
    ) -> Result<(), RowFault> {
        let before = self.before()?;
        let commands = commands_in(alloc, words)?;
        let mut notes = Vec::new(alloc);
        let ended = self.life()?.round(alloc, commands, &mut notes)?;
        tell_refusals(page, &notes);
        tell_replies(page, ended);
        self.tell_since(before, page)
    }

    /// `go_on`: carries out what waits.
    fn go_on(&mut self, alloc: Global, page: &mut Page) -> Result<(), RowFault> {
        let before = self.before()?;
        let ended = self.life()?.go_on(alloc)?;
        tell_replies(page, ended);
        self.tell_since(before, page)
    }

    /// `many COUNT`: carries out COUNT commands in one round, of all kinds and for all blocks, on a device of zeros. Writes how
    /// many the core accepted, what it says to the others, and how many replies are those of an array, in order.
    fn many(
        &mut self,
        alloc: Global,
        words: &mut RowWords,
        page: &mut Page,
    ) -> Result<(), RowFault> {
        let before = self.before()?;
        let blocks = self.life()?.blocks();
        let count = words.short();
        let first = self.life()?.core.next_ticket();
        let mut notes = Vec::new(alloc);
        let commands = many_commands(alloc, blocks, count)?;
        let ended = self.life()?.round(alloc, commands, &mut notes)?;
        tell_notes(page, &notes);
        match ended {
            Ok(replies) => {
                page.word("right");
                page.number(right_replies(alloc, blocks, count, first, &replies)?);
            }
            Err(fault) => page.fault(fault),
        }
        self.tell_since(before, page)
    }

    /// `keep`: keeps the process as it is, without a round.
    fn keep(&mut self, alloc: Global, page: &mut Page) -> Result<(), RowFault> {
        let before = self.before()?;
        if let Err(fault) = self.life()?.keep(alloc)? {
            page.fault(fault);
        }
        self.tell_since(before, page)
    }

    /// `faults`: writes how many messages of the process had a fault, by its link's own count.
    fn faults(&mut self, page: &mut Page) -> Result<(), RowFault> {
        page.number(self.life()?.link.faults());
        Ok(())
    }

    /// `stores`: writes how many STOREs are kept, and how many more wait.
    fn stores(&mut self, page: &mut Page) -> Result<(), RowFault> {
        let link = &self.life()?.link;
        page.word("kept");
        page.number(link.kept().len());
        page.word("held");
        page.number(link.held().len());
        Ok(())
    }

    /// `order`: writes the trees of the FETCHes since the way was set, in their order: a digit for each, one more than the
    /// tree's number.
    fn order(&mut self, page: &mut Page) -> Result<(), RowFault> {
        page.number(self.place.sent()?.order);
        Ok(())
    }

    /// `takes BODY ..`: writes whether a link for the device can begin with these messages as the STOREs that are kept.
    fn takes(
        &mut self,
        alloc: Global,
        words: &mut RowWords,
        page: &mut Page,
    ) -> Result<(), RowFault> {
        let place = self.place;
        let link = link_for(alloc, place, &self.life()?.core, words.bodies(alloc));
        page.flag(link.is_some());
        Ok(())
    }

    /// `noted NOTE`: writes the text of the process with this note, and what is read back of it.
    fn noted(
        &mut self,
        alloc: Global,
        words: &mut RowWords,
        page: &mut Page,
    ) -> Result<(), RowFault> {
        let life = self.life()?;
        let note = words.bytes(alloc);
        let text = text_of(alloc, life.link.waiting(), &note, &life.core)?;
        page.bytes(&text.bytes);
        tell_read_file(alloc, &text, &[], page)
    }

    /// `recorded NOTE RECORDS`: writes the text of the process with this note, up to these records, and what is read back of it: with these
    /// records, and with one byte less of them.
    fn recorded(
        &mut self,
        alloc: Global,
        words: &mut RowWords,
        page: &mut Page,
    ) -> Result<(), RowFault> {
        let life = self.life()?;
        let note = words.bytes(alloc);
        let records = words.bytes(alloc);
        let text = text_before(alloc, life.link.waiting(), &note, &records, &life.core)?;
        page.bytes(&text.bytes);
        tell_read_file(alloc, &text, &records, page)?;
        tell_other_records(alloc, &text, records.get(1..).unwrap_or(&[7]), page)
    }

    /// `file`: writes the text of the process as it is now. `fields`: writes the fields of its core alone. `cut_files` and
    /// `cut_fields`: writes how many texts that lack bytes are refused. `other_sealer`: writes why the text isn't read with
    /// another sealer.
    fn file_row(&mut self, alloc: Global, call: &str, page: &mut Page) -> Result<(), RowFault> {
        let life = self.life()?;
        let note = life.link.note(alloc)?;
        let file = text_of(alloc, life.link.waiting(), &note, &life.core)?.bytes;
        match call {
            "file" => page.bytes(&file),
            "fields" => page.bytes(&fields_of(alloc, &life.core)?),
            "cut_fields" => tell_cut_fields(alloc, &fields_of(alloc, &life.core)?, page)?,
            "cut_files" => tell_cut_files(alloc, &file, page)?,
            "other_sealer" => tell_other_sealer(alloc, &file, page)?,
            _ => return Err(RowFault::NoRow),
        }
        Ok(())
    }
}

/// Reads the commands of a round.
fn commands_in(alloc: Global, words: &mut RowWords) -> Result<Vec<Command>, RowFault> {
    let mut commands = Vec::new(alloc);
    for _ in 0..u64::MAX {
        if words.is_empty() {
            break;
        }
        let command = match words.text() {
            "write" => Command::Write(words.short(), Bytes::from_vec(words.bytes(alloc))),
            "read" => Command::Read(words.short()),
            "discard" => Command::Discard(words.short()),
            _ => return Err(RowFault::NoRow),
        };
        commands.push(command)?;
    }
    Ok(commands)
}

/// Writes how many commands the core accepted, and what it says to the others.
fn tell_notes(page: &mut Page, notes: &[Note]) {
    let accepted = notes
        .iter()
        .filter(|note| matches!(**note, Note::Accepted(_)))
        .count();
    page.word("accepted");
    page.number(accepted);
    tell_refusals(page, notes);
}

/// Writes what the core says to the commands that it refuses.
fn tell_refusals(page: &mut Page, notes: &[Note]) {
    for note in notes {
        if let Note::Refused(why) = note {
            page.word("refused");
            page.show(why);
        }
    }
}

/// Writes the replies to a round, or why there are none.
fn tell_replies(page: &mut Page, ended: Result<Vec<Reply>, RoundFault>) {
    let replies = match ended {
        Ok(replies) => replies,
        Err(fault) => {
            page.fault(fault);
            return;
        }
    };
    for reply in &replies {
        match &reply.body {
            ReplyBody::Data(bytes) => page.bytes(bytes.as_slice()),
            ReplyBody::Done => page.word("done"),
            ReplyBody::Failed => page.word("failed"),
        }
    }
}
