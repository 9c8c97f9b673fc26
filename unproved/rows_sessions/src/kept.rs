//! Rows of a link and of a core over it, which are kept from row to row.

use crate::faults::{standing, tell_end, tell_note, tell_outcome};
use crate::network::CuttableNet;
use crate::ways::AnyLink;
use oram_bucket::PlainSeal;
use oram_bytes::{Bytes, Words as WordList};
use oram_core::{Command, Core, Event, Note};
use oram_geometry::Device;
use oram_host::Server;
use oram_session::{Link, format_device, resume};
use oram_tree::FormatFault;
use oram_wire::SinkFault;
use rows::{Page, RowFault, RowWords, device_in, flip_in};
use std::alloc::Global;
use std::net::Net;

/// The link and the core.
#[derive(Drop)]
pub(crate) struct Kept<'a, R: Net> {
    pub(crate) net: &'a CuttableNet<R>,
    link: Option<AnyLink<'a, R>>,
    core: Option<Box<Core<PlainSeal>>>,
}

impl<'a, R: Net> Kept<'a, R> {
    pub(crate) fn new(net: &'a CuttableNet<R>) -> Kept<'a, R> {
        Kept {
            net,
            link: None,
            core: None,
        }
    }

    /// Makes the call of this name on the link or the core.
    pub(crate) fn make(
        &mut self,
        alloc: Global,
        call: &str,
        words: &mut RowWords,
        page: &mut Page,
    ) -> Result<(), RowFault> {
        match call {
            "link" => self.begin(alloc, words, page),
            "relink" => self.relink(alloc, words, page),
            "call" => self.call(alloc, words, page),
            "calls" => self.calls(page),
            "cut" => self.cut(page),
            "flip" => self.flip(alloc, words, page),
            "format" => self.format(alloc, words, page),
            "resume" => self.resume(alloc, page),
            _ => self.step(alloc, &event_in(alloc, call, words)?, page),
        }
    }

    /// `link LINK`: makes a link to a new server, without a core.
    fn begin(
        &mut self,
        alloc: Global,
        words: &mut RowWords,
        page: &mut Page,
    ) -> Result<(), RowFault> {
        self.core = None;
        let server = Box::new(alloc, Server::new(alloc))?;
        self.link = Some(AnyLink::read(alloc, words, self.net, server)?);
        page.word("new");
        Ok(())
    }

    /// `relink LINK`: makes another link to the server of the `direct` link.
    fn relink(
        &mut self,
        alloc: Global,
        words: &mut RowWords,
        page: &mut Page,
    ) -> Result<(), RowFault> {
        let server = self.take_server(alloc)?;
        self.link = Some(AnyLink::read(alloc, words, self.net, server)?);
        page.word("new");
        Ok(())
    }

    /// Takes the server of the `direct` link, and removes the link.
    fn take_server(&mut self, alloc: Global) -> Result<Box<Server>, RowFault> {
        match self.link.take() {
            Some(link) => link.into_server(alloc),
            None => Err(RowFault::NoRow),
        }
    }

    /// `call BODY`: sends a message over the link, and writes the answer.
    fn call(
        &mut self,
        alloc: Global,
        words: &mut RowWords,
        page: &mut Page,
    ) -> Result<(), RowFault> {
        let body = words.bytes(alloc);
        let Some(link) = &mut self.link else {
            return Err(RowFault::NoRow);
        };
        let outcome = link.call(alloc, &body);
        link.check_memory()?;
        tell_outcome(page, outcome)
    }

    /// `calls`: writes how many calls the link had, and how many of them had a fault.
    fn calls(&mut self, page: &mut Page) -> Result<(), RowFault> {
        match &self.link {
            Some(link) => link.tell(page),
            None => Err(RowFault::NoRow),
        }
    }

    /// `cut`: shuts down the connection of the `loop` link.
    fn cut(&mut self, page: &mut Page) -> Result<(), RowFault> {
        if self.net.cut().is_err() {
            return Err(RowFault::NoRow);
        }
        page.word("done");
        Ok(())
    }

    /// `flip TREE NODE OFFSET`: flips a bit of a byte that the server of the `direct` link keeps.
    fn flip(
        &mut self,
        alloc: Global,
        words: &mut RowWords,
        page: &mut Page,
    ) -> Result<(), RowFault> {
        let mut server = self.take_server(alloc)?;
        let flipped = flip_in(&mut server, words);
        self.link = Some(AnyLink::direct(alloc, server)?);
        page.flag(flipped);
        Ok(())
    }

    /// `format DEVICE`: formats a device over the link, and keeps its core.
    fn format(
        &mut self,
        alloc: Global,
        words: &mut RowWords,
        page: &mut Page,
    ) -> Result<(), RowFault> {
        let device = device_in(words)?;
        self.core = None;
        let Some(link) = &mut self.link else {
            return Err(RowFault::NoRow);
        };
        self.core = formatted(alloc, device, link, page)?;
        Ok(())
    }

    /// `read ADDRESS WORDS`, `lost` or `answer BYTES`: gives the core this event, and writes its note.
    fn step(&mut self, alloc: Global, event: &Event, page: &mut Page) -> Result<(), RowFault> {
        let Some(core) = &mut self.core else {
            return Err(RowFault::NoRow);
        };
        tell_note(page, note_of(alloc, core, event)?);
        Ok(())
    }

    /// `resume`: carries out the commands that wait. Writes how many were carried out, or why the rest wasn't; then how
    /// the core is, how many commands wait and how many there were; and the calls of the link.
    fn resume(&mut self, alloc: Global, page: &mut Page) -> Result<(), RowFault> {
        let (Some(core), Some(link)) = (&mut self.core, &mut self.link) else {
            return Err(RowFault::NoRow);
        };
        let ended = resume(alloc, core, link);
        link.check_memory()?;
        tell_end(page, ended)?;
        tell_waiting(core, page);
        link.tell(page)
    }
}

/// Returns the core's note at an event.
fn note_of(alloc: Global, core: &mut Core<PlainSeal>, event: &Event) -> Result<Note, RowFault> {
    Ok(core.step(alloc, event)?.note)
}

/// Writes how a core is, how many commands wait and how many there were.
fn tell_waiting(core: &Core<PlainSeal>, page: &mut Page) {
    page.word(standing(core));
    page.word("waiting");
    page.number(core.waiting());
    page.word("of");
    page.number(core.next_ticket());
}

/// Formats a device over a link. Writes how its core is, or why there is none.
fn formatted<R: Net>(
    alloc: Global,
    device: Device,
    link: &mut AnyLink<'_, R>,
    page: &mut Page,
) -> Result<Option<Box<Core<PlainSeal>>>, RowFault> {
    let made = format_device(alloc, device, PlainSeal, link);
    link.check_memory()?;
    match made {
        Ok(core) => {
            page.word(standing(&core));
            return Ok(Some(Box::new(alloc, core)?));
        }
        Err(FormatFault::Sink(SinkFault::Refused)) => page.word("refused"),
        Err(FormatFault::Sink(SinkFault::Link)) => page.word("the link has a fault"),
        Err(_) => return Err(RowFault::OutOfMemory),
    }
    Ok(None)
}

/// Reads the event of a call.
fn event_in(alloc: Global, call: &str, words: &mut RowWords) -> Result<Event, RowFault> {
    match call {
        "read" => Ok(Event::Submit {
            session: 1,
            command: Command::Read(words.short()),
            words: WordList::from_vec(words.numbers(alloc)),
        }),
        "lost" => Ok(Event::Lost),
        "answer" => Ok(Event::Answer(Bytes::from_vec(words.bytes(alloc)))),
        _ => Err(RowFault::NoRow),
    }
}
