//! A host in memory, for devices whose processes end and begin again. It has faults where a row wants them, and counts the
//! messages that are sent to it.
ghost use Rattle.std.specs.Prelude.{◌≡◌};
ghost use Rattle.oram_session.specs.Outcome.{faults_after};

use oram_host::Server;
use oram_session::{Link, LinkFault};
use oram_wire::HostView;
use rows::{RowFault, RowWords, lacks_room};
use std::alloc::Global;
use std::cell::Cell;

/// What becomes of the messages that a process sends. Messages count from 0.
#[derive(Drop)]
pub(crate) enum Way {
    /// Each is carried out and answered.
    Honest,
    /// The process ends at message `at`, before or after the host has carried it out.
    Ends { at: u64, after: bool },
    /// `times` messages from message `at` on have a fault, before or after the host has carried them out.
    Faults { at: u64, times: u64, after: bool },
    /// `times` messages from message `at` on are answered with these bytes, and aren't carried out.
    Answers { at: u64, times: u64, bytes: Vec<u8> },
    /// The answer to message `at` has a wrong byte at this offset.
    Lies { at: u64, offset: usize },
}

/// What becomes of one message.
#[derive(Clone, Copy)]
enum Fate {
    Answered,
    /// It is carried out, but its answer is lost.
    Unanswered,
    Lost,
    /// It gets the bytes of the way as its answer.
    Refused,
    /// It is carried out, and gets a wrong answer.
    Deceived,
    /// The process has ended before it.
    Unsent,
}

/// Returns the fate of a message that has a fault.
fn faulty(after: bool) -> Fate {
    if after { Fate::Unanswered } else { Fate::Lost }
}

/// Reads the word `before` or `after`, and returns whether it is `after`.
pub(crate) fn read_after(words: &mut RowWords) -> Result<bool, RowFault> {
    match words.text() {
        "before" => Ok(false),
        "after" => Ok(true),
        _ => Err(RowFault::NoRow),
    }
}

impl Way {
    /// Makes a way from the next words: `honest`, `ends AT before|after`, `faults AT TIMES before|after`, `answers AT TIMES
    /// BYTES` or `lies AT OFFSET`.
    pub(crate) fn read(alloc: Global, words: &mut RowWords) -> Result<Way, RowFault> {
        match words.text() {
            "honest" => Ok(Way::Honest),
            "ends" => Ok(Way::Ends {
                at: words.number(),
                after: read_after(words)?,
            }),
            "faults" => Ok(Way::Faults {
                at: words.number(),
                times: words.number(),
                after: read_after(words)?,
            }),
            "answers" => Ok(Way::Answers {
                at: words.number(),
                times: words.number(),
                bytes: words.bytes(alloc),
            }),
            "lies" => Ok(Way::Lies {
                at: words.number(),
                offset: words.size(),
            }),
            _ => Err(RowFault::NoRow),
        }
    }

    fn fate(&self, number: u64) -> Fate {
        match self {
            Way::Ends { at, .. } if number > *at => Fate::Unsent,
            Way::Ends { at, after } if number == *at => faulty(*after),
            Way::Faults { at, times, after } if is_within(number, *at, *times) => faulty(*after),
            Way::Answers { at, times, .. } if is_within(number, *at, *times) => Fate::Refused,
            Way::Lies { at, .. } if number == *at => Fate::Deceived,
            _ => Fate::Answered,
        }
    }
}

fn is_within(number: u64, at: u64, times: u64) -> bool {
    at <= number && number - at < times
}

/// How many messages of each kind were sent.
#[derive(Clone, Copy, Drop)]
pub(crate) struct Sent {
    pub(crate) fetches: u64,
    pub(crate) stores: u64,
    /// The trees of the FETCHes in their order, as decimal digits: each one more than the tree's number.
    pub(crate) order: u64,
}

impl Sent {
    fn add_fetch(&mut self, tree: u8) {
        self.fetches = self.fetches.saturating_add(1);
        self.order = self
            .order
            .saturating_mul(10)
            .saturating_add(u64::from(tree) + 1);
    }
}

/// A server in memory, and what becomes of the messages to it.
#[derive(Drop)]
pub(crate) struct Host {
    /// It is in a box, so that a function that has it has only one value to drop, and is proved faster.
    server: Box<Server>,
    way: Way,
    /// How many messages there were since the way was set.
    calls: u64,
    sent: Sent,
    lacks_memory: bool,
}

impl Host {
    fn count(&mut self, body: &[u8]) {
        match HostView::read(body) {
            Ok(HostView::Fetch { tree, .. }) => self.sent.add_fetch(tree),
            Ok(HostView::Store { .. }) => self.sent.stores = self.sent.stores.saturating_add(1),
            _ => {}
        }
    }

    /// Lets the server answer, which must have memory for it.
    fn serve(&mut self, alloc: Global, body: &[u8]) -> Result<Vec<u8>, LinkFault> {
        match self.server.answer(alloc, body) {
            Ok(answer) if !lacks_room(&answer) => Ok(answer),
            _ => {
                self.lacks_memory = true;
                Err(LinkFault::OutOfMemory)
            }
        }
    }

    /// Returns the bytes that the way has as an answer.
    fn refuse(&self, alloc: Global) -> Result<Vec<u8>, LinkFault> {
        match &self.way {
            Way::Answers { bytes, .. } => Ok(bytes.to_vec(alloc)?),
            _ => Err(LinkFault::Closed),
        }
    }

    /// Lets the server answer, and flips a bit of a byte of its answer.
    fn deceive(&mut self, alloc: Global, body: &[u8]) -> Result<Vec<u8>, LinkFault> {
        let mut answer = self.serve(alloc, body)?;
        if let Way::Lies { offset, .. } = &self.way {
            if let Some(byte) = answer.get_mut(*offset) {
                *byte ^= 1;
            }
        }
        Ok(answer)
    }

    fn call(&mut self, alloc: Global, body: &[u8]) -> Result<Vec<u8>, LinkFault> {
        let fate = self.way.fate(self.calls);
        self.calls = self.calls.saturating_add(1);
        if !matches!(fate, Fate::Unsent) {
            self.count(body);
        }
        match fate {
            Fate::Answered => self.serve(alloc, body),
            Fate::Refused => self.refuse(alloc),
            Fate::Deceived => self.deceive(alloc, body),
            Fate::Unanswered => {
                let _lost = self.serve(alloc, body)?;
                Err(LinkFault::Io)
            }
            Fate::Lost | Fate::Unsent => Err(LinkFault::Io),
        }
    }
}

/// A place for a host, which stays there while processes come and go.
#[derive(Drop)]
pub(crate) struct HostPlace {
    host: Cell<Option<Host>>,
}

impl HostPlace {
    /// Makes a place without a host.
    pub(crate) fn new() -> HostPlace {
        HostPlace {
            host: Cell::new(None),
        }
    }

    /// Puts a server there.
    pub(crate) fn put(&self, server: Box<Server>, way: Way) {
        let host = Host {
            server,
            way,
            calls: 0,
            sent: Sent {
                fetches: 0,
                stores: 0,
                order: 0,
            },
            lacks_memory: false,
        };
        let _before = self.host.replace(Some(host));
    }

    /// Takes the host away. Fails if there is none, or if it ran out of memory.
    fn take(&self) -> Result<Host, RowFault> {
        match self.host.take() {
            Some(host) if host.lacks_memory => Err(RowFault::OutOfMemory),
            Some(host) => Ok(host),
            None => Err(RowFault::NoRow),
        }
    }

    /// Takes the server away. Fails if there is none, or if it ran out of memory.
    pub(crate) fn take_server(&self) -> Result<Box<Server>, RowFault> {
        let host = self.take()?;
        Ok(host.server)
    }

    /// Sets what becomes of the messages from now on; they count from 0 again.
    pub(crate) fn set(&self, way: Way) -> Result<(), RowFault> {
        let server = self.take_server()?;
        self.put(server, way);
        Ok(())
    }

    /// Returns how many messages were sent since the way was set.
    pub(crate) fn sent(&self) -> Result<Sent, RowFault> {
        let host = self.take()?;
        let sent = host.sent;
        let _none = self.host.replace(Some(host));
        Ok(sent)
    }
}

/// A link to the host at a place.
#[derive(Drop)]
pub(crate) struct HostLink<'a> {
    place: &'a HostPlace,
    faults: u64,
}

impl<'a> HostLink<'a> {
    pub(crate) fn new(place: &'a HostPlace) -> HostLink<'a> {
        HostLink { place, faults: 0 }
    }

    /// Hands the message to the host.
    fn pass(&self, alloc: Global, body: &[u8]) -> Result<Vec<u8>, LinkFault> {
        let Some(mut host) = self.place.host.take() else {
            return Err(LinkFault::Closed);
        };
        let outcome = host.call(alloc, body);
        let _none = self.place.host.replace(Some(host));
        outcome
    }
}

impl Link for HostLink<'_> {
    ghost calls = { λ l body outcome m. m.faults ≡ faults_after l.faults outcome };

    ghost fault_count = { λ l. l.faults };

    fn call(&mut self, alloc: Global, body: &[u8]) -> Result<Vec<u8>, LinkFault> {
        let outcome = self.pass(alloc, body);
        if outcome.is_err() {
            self.faults = self.faults.saturating_add(1);
        }
        outcome
    }

    fn faults(&self) -> u64 {
        self.faults
    }

    ghost counts = { λ l m body outcome h. h };
}
