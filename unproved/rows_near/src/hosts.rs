//! A host in memory that answers messages about levels, and has faults where a row wants them.

use oram_geometry::Device;
use oram_levels::LevelsRequest;
use oram_rounds::{BatchLink, LinkRecords};
use oram_session::LinkFault;
use rows::{RowFault, RowWords};
use std::alloc::{AllocError, Global};
use std::cell::Cell;

/// What becomes of the messages of a batch. Messages count from 0.
#[derive(Drop)]
pub(crate) enum Way {
    /// Each is carried out and answered.
    Honest,
    /// The first ones are carried out, and none is answered.
    Loses { heard: u64 },
    /// Message `at` is answered with these bytes, and isn't carried out.
    Answers { at: u64, bytes: Vec<u8> },
    /// The first `heard` ones are carried out, and the first `given` ones of these are answered.
    Breaks { given: u64, heard: u64 },
    /// A batch can't be begun: nothing is sent.
    Declines,
}

impl Way {
    /// Makes a way from the next words: `honest`, `loses HEARD`, `answers AT BYTES`, `breaks GIVEN HEARD` or `declines`.
    pub(crate) fn read(alloc: Global, words: &mut RowWords) -> Result<Way, RowFault> {
        match words.text() {
            "honest" => Ok(Way::Honest),
            "loses" => Ok(Way::Loses {
                heard: words.number(),
            }),
            "answers" => Ok(Way::Answers {
                at: words.number(),
                bytes: words.bytes(alloc),
            }),
            "breaks" => Ok(Way::Breaks {
                given: words.number(),
                heard: words.number(),
            }),
            "declines" => Ok(Way::Declines),
            _ => Err(RowFault::NoRow),
        }
    }
}

/// A record that the host was given.
#[derive(Drop)]
struct Stored {
    tree: u8,
    node: u32,
    record: Vec<u8>,
}

/// The records that the host was given, the newest last.
#[derive(Drop)]
pub(crate) struct Host {
    device: Device,
    record_len: usize,
    stored: Vec<Stored>,
    way: Way,
    /// The messages of the last batch.
    pub(crate) sent: Vec<Vec<u8>>,
    /// Whether a batch was to be begun since the way was set.
    pub(crate) asked: bool,
    /// The answers that weren't taken yet, of a batch whose answers are taken one by one. Those that are lost are `None`.
    to_come: Vec<Option<Vec<u8>>>,
}

impl Host {
    pub(crate) fn new(alloc: Global, device: Device, record_len: usize) -> Host {
        Host {
            device,
            record_len,
            stored: Vec::new(alloc),
            way: Way::Honest,
            sent: Vec::new(alloc),
            asked: false,
            to_come: Vec::new(alloc),
        }
    }

    fn record(&self, tree: u8, node: u32) -> Option<&[u8]> {
        let mut found = None;
        for stored in &self.stored {
            if stored.tree == tree && stored.node == node {
                found = Some(stored.record.as_slice());
            }
        }
        found
    }

    fn fetch(
        &self,
        alloc: Global,
        tree: u8,
        first: u8,
        last: u8,
        leaf: u32,
    ) -> Result<Vec<u8>, LinkFault> {
        let mut answer = [0x80, 0].to_vec(alloc)?;
        for level in first..last + 1 {
            let Some(record) = self.record(tree, self.device.node_on(tree, leaf, level)) else {
                break;
            };
            answer.extend_from_slice(record)?;
            answer[1] += 1;
        }
        Ok(answer)
    }

    fn store(
        &mut self,
        alloc: Global,
        tree: u8,
        first: u8,
        leaf: u32,
        records: &[u8],
    ) -> Result<Vec<u8>, LinkFault> {
        let mut start = 0;
        for level in first..self.device.depth(tree) + 1 {
            let record = records[start..start + self.record_len].to_vec(alloc)?;
            let node = self.device.node_on(tree, leaf, level);
            if self.stored.push(Stored { tree, node, record }).is_err() {
                return Err(LinkFault::OutOfMemory);
            }
            start += self.record_len;
        }
        Ok([0x80].to_vec(alloc)?)
    }

    fn carry_out(&mut self, alloc: Global, body: &[u8]) -> Result<Vec<u8>, LinkFault> {
        match LevelsRequest::decode(body) {
            Ok(
                LevelsRequest::Fetch {
                    tree,
                    first,
                    last,
                    leaf,
                },
            ) => self.fetch(alloc, tree, first, last, leaf),
            Ok(
                LevelsRequest::Store {
                    tree,
                    first,
                    leaf,
                    records,
                },
            ) => self.store(alloc, tree, first, leaf, records),
            Err(_) => Ok([0x81, 4].to_vec(alloc)?),
        }
    }

    /// Returns the answer to the message of this number, or `None` if it is lost.
    fn answer(
        &mut self,
        alloc: Global,
        number: u64,
        body: &[u8],
    ) -> Result<Option<Vec<u8>>, LinkFault> {
        match &self.way {
            Way::Loses { heard } | Way::Breaks { heard, .. } if number >= *heard => return Ok(None),
            Way::Answers { at, bytes } if number == *at => return Ok(Some(bytes.to_vec(alloc)?)),
            _ => {}
        }
        let answer = self.carry_out(alloc, body)?;
        Ok(match self.way {
            Way::Loses { .. } => None,
            Way::Breaks { given, .. } if number >= given => None,
            _ => Some(answer),
        })
    }

    fn answer_all(
        &mut self,
        alloc: Global,
        first: &[Vec<u8>],
        last: &[Vec<u8>],
    ) -> Result<Vec<Vec<u8>>, LinkFault> {
        self.sent.clear();
        let mut answers = Vec::new(alloc);
        let mut lost = matches!(self.way, Way::Loses { .. });
        for bodies in [first, last] {
            for body in bodies {
                let number = self.sent.len() as u64;
                push(&mut self.sent, body.to_vec(alloc)?)?;
                match self.answer(alloc, number, body)? {
                    Some(answer) => push(&mut answers, answer)?,
                    None => lost = true,
                }
            }
        }
        if lost {
            Err(LinkFault::Io)
        } else {
            Ok(answers)
        }
    }

    /// Receives the messages of a batch whose answers are taken one by one. Returns whether it has.
    fn begin(
        &mut self,
        alloc: Global,
        first: &[Vec<u8>],
        last: &[Vec<u8>],
    ) -> Result<bool, LinkFault> {
        self.asked = true;
        self.sent.clear();
        self.to_come.clear();
        if matches!(self.way, Way::Declines) {
            return Ok(false);
        }
        for bodies in [first, last] {
            for body in bodies {
                let number = self.sent.len() as u64;
                push(&mut self.sent, body.to_vec(alloc)?)?;
                let answer = self.answer(alloc, number, body)?;
                if self.to_come.push(answer).is_err() {
                    return Err(LinkFault::OutOfMemory);
                }
            }
        }
        Ok(true)
    }

    /// Returns the next answer of the batch that was begun.
    fn next_answer(&mut self) -> Result<Vec<u8>, LinkFault> {
        if self.to_come.is_empty() {
            return Err(LinkFault::Closed);
        }
        match self.to_come.remove(0) {
            Some(answer) => Ok(answer),
            None => Err(LinkFault::Io),
        }
    }
}

fn push(all: &mut Vec<Vec<u8>>, one: Vec<u8>) -> Result<(), LinkFault> {
    if all.push(one).is_err() {
        return Err(LinkFault::OutOfMemory);
    }
    Ok(())
}

/// A place for a host, which stays there while links come and go.
#[derive(Drop)]
pub(crate) struct HostPlace {
    host: Cell<Option<Host>>,
}

impl HostPlace {
    /// Makes a place without a host.
    pub(crate) fn new() -> HostPlace {
        HostPlace {
            host: Cell::new(None),
        }
    }

    pub(crate) fn put(&self, host: Host) {
        let _before = self.host.replace(Some(host));
    }

    /// Takes the host away. Fails if there is none.
    pub(crate) fn take(&self) -> Result<Host, RowFault> {
        match self.host.take() {
            Some(host) => Ok(host),
            None => Err(RowFault::NoRow),
        }
    }

    /// Sets what becomes of the messages of the next batches, and forgets those of the last one.
    pub(crate) fn set(&self, way: Way) -> Result<(), RowFault> {
        let mut host = self.take()?;
        host.way = way;
        host.asked = false;
        host.sent.clear();
        self.put(host);
        Ok(())
    }
}

/// A link to the host at a place.
#[derive(Drop)]
pub(crate) struct HostLink<'a> {
    pub(crate) place: &'a HostPlace,
}

impl BatchLink for HostLink<'_> {
    ghost use Rattle.std.specs.Prelude.{◌≡◌, [], ⊤};
    ghost use Rattle.std.proofs.Common.{inl, refl};
    ghost use Rattle.oram_rounds.specs.Batches.{IsBatch, answered};

    ghost batches = { λ l bodies o exchanges m. IsBatch bodies o exchanges };

    ghost streams = { λ l bodies answers m. ⊤ };

    ghost notes = { λ l. record { text = []; records = [] } };

    ghost tells = { λ l old. ⊤ };

    ghost learns = { λ l check m. m ≡ l };

    ghost are_batches = { λ l m bodies o exchanges h. h };

    ghost ends_as_batch = { λ l m bodies answers h count. (answered bodies answers, (count, [], tt, refl)) };

    ghost learning_sends_nothing = { λ l m check same. inl same };

    ghost batches_are_told = { λ l m bodies o exchanges old some h told. tt };

    ghost learning_counts_anew = { λ l m check same. tt };

    fn call_all(
        &mut self,
        alloc: Global,
        first: &[Vec<u8>],
        last: &[Vec<u8>],
    ) -> Result<Vec<Vec<u8>>, LinkFault> {
        let Some(mut host) = self.place.host.take() else {
            return Err(LinkFault::Closed);
        };
        let outcome = host.answer_all(alloc, first, last);
        self.place.put(host);
        outcome
    }

    fn begin(&mut self, alloc: Global, first: &[Vec<u8>], last: &[Vec<u8>]) -> bool {
        let Some(mut host) = self.place.host.take() else {
            return false;
        };
        let begun = host.begin(alloc, first, last);
        self.place.put(host);
        matches!(begun, Ok(true))
    }

    fn next_answer(&mut self, _alloc: Global, _body: &[u8]) -> Result<Vec<u8>, LinkFault> {
        let Some(mut host) = self.place.host.take() else {
            return Err(LinkFault::Closed);
        };
        let answer = host.next_answer();
        self.place.put(host);
        answer
    }

    fn note(&self, alloc: Global) -> Result<Vec<u8>, AllocError> {
        Ok(Vec::new(alloc))
    }

    fn records(&self) -> LinkRecords<'_> {
        LinkRecords::none()
    }

    fn learn_kept(&mut self, _check: u64) {}
}
