//! Links to hosts, as rows name them.
ghost use Rattle.std.specs.Prelude.{◌≡◌};
ghost use Rattle.oram_session.specs.Outcome.{faults_after};

use crate::ends::{LimitedWriter, RowReader};
use crate::network::CuttableNet;
use oram_host::Server;
use oram_session::{Direct, FaultLink, Link, LinkFault, LoopLink, StreamLink};
use rows::{Page, RowFault, RowWords, lacks_room};
use std::alloc::Global;
use std::net::Net;

/// A link of one of the kinds. Most of them are in boxes, so that a function that has a link has less to drop, and is proved
/// faster.
#[derive(Drop)]
enum Way<'a, R: Net> {
    Direct(Box<Direct>),
    Faults(Box<FaultLink<Direct>>),
    Loop(LoopLink<&'a CuttableNet<R>>),
    Stream(Box<StreamLink<RowReader, LimitedWriter>>),
}

impl<R: Net> Way<'_, R> {
    fn call(&mut self, alloc: Global, body: &[u8]) -> Result<Vec<u8>, LinkFault> {
        match self {
            Way::Direct(link) => link.call(alloc, body),
            Way::Faults(link) => link.call(alloc, body),
            Way::Loop(link) => link.call(alloc, body),
            Way::Stream(link) => link.call(alloc, body),
        }
    }

    fn faults(&self) -> u64 {
        match self {
            Way::Direct(link) => link.faults(),
            Way::Faults(link) => link.faults(),
            Way::Loop(link) => link.faults(),
            Way::Stream(link) => link.faults(),
        }
    }
}

/// Returns whether memory ran out in a call, here or at the host.
fn lacks_memory(outcome: &Result<Vec<u8>, LinkFault>) -> bool {
    match outcome {
        Ok(answer) => lacks_room(answer),
        Err(fault) => *fault == LinkFault::OutOfMemory,
    }
}

/// A link that counts its calls, and remembers whether memory ran out in one of them.
#[derive(Drop)]
pub(crate) struct AnyLink<'a, R: Net> {
    way: Way<'a, R>,
    calls: u64,
    faults: u64,
    lacks_memory: bool,
}

impl<'a, R: Net> AnyLink<'a, R> {
    /// Makes a link from the next words:
    ///
    /// - `direct`: to the server in memory.
    /// - `forgetful`: to a new server instead, which keeps nothing.
    /// - `faults AT TIMES before|after`: to the server in memory, but `TIMES` calls from call `AT` on have a fault,
    ///   before or after the server has done its work.
    /// - `loop`: to the server over a connection from this machine to itself.
    /// - `stream READER`: what is sent goes nowhere, and the reader gives the answers.
    pub(crate) fn read(
        alloc: Global,
        words: &mut RowWords,
        net: &'a CuttableNet<R>,
        server: Box<Server>,
    ) -> Result<AnyLink<'a, R>, RowFault> {
        let way = match words.text() {
            "direct" => direct(alloc, Box::into_inner(server))?,
            "forgetful" => direct(alloc, Server::new(alloc))?,
            "faults" => Way::Faults(faulty(alloc, words, server)?),
            "loop" => match LoopLink::open(net, alloc, Box::into_inner(server)) {
                Ok(link) => Way::Loop(link),
                Err(_) => return Err(RowFault::NoRow),
            },
            "stream" => {
                let answers = RowReader::read(alloc, words)?;
                let link = StreamLink::new(alloc, answers, LimitedWriter::ample(alloc));
                Way::Stream(Box::new(alloc, link)?)
            }
            _ => return Err(RowFault::NoRow),
        };
        Ok(AnyLink::over(way))
    }

    /// Makes a `direct` link.
    pub(crate) fn direct(alloc: Global, server: Box<Server>) -> Result<AnyLink<'a, R>, RowFault> {
        Ok(AnyLink::over(direct(alloc, Box::into_inner(server))?))
    }

    fn over(way: Way<'a, R>) -> AnyLink<'a, R> {
        AnyLink {
            way,
            calls: 0,
            faults: 0,
            lacks_memory: false,
        }
    }

    /// Returns the server of a `direct` link.
    pub(crate) fn into_server(self, alloc: Global) -> Result<Box<Server>, RowFault> {
        match self.way {
            Way::Direct(link) => Ok(Box::new(alloc, Box::into_inner(link).into_server())?),
            _ => Err(RowFault::NoRow),
        }
    }

    /// Fails if memory ran out in a call, since the row has no answer then.
    pub(crate) fn check_memory(&self) -> Result<(), RowFault> {
        if self.lacks_memory {
            return Err(RowFault::OutOfMemory);
        }
        Ok(())
    }

    /// Returns how many calls there were.
    pub(crate) fn calls(&self) -> u64 {
        match &self.way {
            Way::Faults(link) => link.calls(),
            _ => self.calls,
        }
    }

    /// Writes how many calls there were, and how many of them had a fault by the link's own count.
    pub(crate) fn tell(&self, page: &mut Page) -> Result<(), RowFault> {
        self.check_memory()?;
        page.word("calls");
        page.number(self.calls());
        page.word("faults");
        page.number(self.way.faults());
        Ok(())
    }
}

/// Makes a link to a server in memory.
fn direct<'a, R: Net>(alloc: Global, server: Server) -> Result<Way<'a, R>, RowFault> {
    Ok(Way::Direct(Box::new(alloc, Direct::new(alloc, server))?))
}

/// Makes a link from the words `AT TIMES before|after`.
fn faulty(
    alloc: Global,
    words: &mut RowWords,
    server: Box<Server>,
) -> Result<Box<FaultLink<Direct>>, RowFault> {
    let (at, times) = (words.number(), words.number());
    let after = match words.text() {
        "before" => false,
        "after" => true,
        _ => return Err(RowFault::NoRow),
    };
    let link = Direct::new(alloc, Box::into_inner(server));
    Ok(Box::new(alloc, FaultLink::new(link, at, times, after))?)
}

impl<R: Net> Link for AnyLink<'_, R> {
    ghost calls = { λ l body outcome m. m.faults ≡ faults_after l.faults outcome };

    ghost fault_count = { λ l. l.faults };

    fn call(&mut self, alloc: Global, body: &[u8]) -> Result<Vec<u8>, LinkFault> {
        self.calls = self.calls.saturating_add(1);
        let outcome = self.way.call(alloc, body);
        if outcome.is_err() {
            self.faults = self.faults.saturating_add(1);
        }
        self.lacks_memory = self.lacks_memory || lacks_memory(&outcome);
        outcome
    }

    fn faults(&self) -> u64 {
        self.faults
    }

    ghost counts = { λ l m body outcome h. h };
}
