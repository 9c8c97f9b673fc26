//! A host in memory that answers requests for records. It asks the server for the path of each node, so that it shares no code with the
//! hosts of disks.

use oram_host::Server;
use oram_pipeline::PipelinedLink;
use oram_records::RecordsRequest;
use oram_rounds::{BatchLink, LinkRecords};
use oram_session::LinkFault;
use oram_wire::HostRequest;
use rows::{RowFault, RowWords, lacks_room};
use std::alloc::{AllocError, Global};

/// Adds an item to a list.
pub(crate) fn push<T: Drop>(items: &mut Vec<T>, item: T) -> Result<(), AllocError> {
    match items.push(item) {
        Ok(()) => Ok(()),
        Err(error) => Err(AllocError::from(error)),
    }
}

/// What a host does to the records that it gives.
#[derive(Drop)]
pub(crate) enum Way {
    Honest,
    /// It changes the last byte of the bucket of this node of this tree.
    Flips { tree: u8, node: u64 },
    /// It has no record for this node.
    Hides { tree: u8, node: u64 },
    /// It gives the record of another node of the tree for this one.
    Swaps { tree: u8, node: u64, other: u64 },
    /// It gives each request this answer.
    Answers { bytes: Vec<u8> },
    /// It adds these bytes to each answer.
    Adds { bytes: Vec<u8> },
    /// The link fails at this batch.
    Fails { at: u64 },
}

impl Way {
    pub(crate) fn read(alloc: Global, words: &mut RowWords) -> Result<Way, RowFault> {
        match words.text() {
            "honest" => Ok(Way::Honest),
            "flips" => Ok(Way::Flips {
                tree: words.byte(),
                node: words.number(),
            }),
            "hides" => Ok(Way::Hides {
                tree: words.byte(),
                node: words.number(),
            }),
            "swaps" => Ok(Way::Swaps {
                tree: words.byte(),
                node: words.number(),
                other: words.number(),
            }),
            "answers" => Ok(Way::Answers {
                bytes: words.bytes(alloc),
            }),
            "adds" => Ok(Way::Adds {
                bytes: words.bytes(alloc),
            }),
            "fails" => Ok(Way::Fails { at: words.number() }),
            _ => Err(RowFault::NoRow),
        }
    }
}

/// A link to such a host, which counts what it was asked for.
#[derive(Drop)]
pub(crate) struct RecordsHost {
    pub(crate) server: Server,
    pub(crate) depths: Vec<u8>,
    pub(crate) record_len: usize,
    pub(crate) way: Way,
    /// The first bodies of each batch, and how many it has.
    pub(crate) batches: Vec<Vec<Vec<u8>>>,
    /// The messages that were sent ahead, and whose answers aren't read yet.
    pub(crate) asked: Option<Result<Vec<Vec<u8>>, AllocError>>,
}

impl RecordsHost {
    /// Returns the record of a node: that at its level on the path of the leftmost leaf below it.
    fn record(&mut self, alloc: Global, tree: u8, node: u64) -> Result<Vec<u8>, LinkFault> {
        let depth = self.depths[tree as usize];
        let level = (node + 1).ilog2() as usize;
        let leaf = (node + 1 - (1 << level)) << (depth as usize - level);
        let fetch = HostRequest::Fetch {
            tree,
            leaf: leaf as u32,
        };
        let answer = self.server.answer(alloc, &fetch.encode(alloc)?)?;
        if lacks_room(&answer) {
            return Err(LinkFault::OutOfMemory);
        }
        let first = 1 + level * self.record_len;
        Ok(answer[first..first + self.record_len].to_vec(alloc)?)
    }

    /// Appends the row of a node.
    fn add_row(
        &mut self,
        alloc: Global,
        tree: u8,
        node: u64,
        out: &mut Vec<u8>,
    ) -> Result<(), LinkFault> {
        let mut from = node;
        let mut flips = false;
        match &self.way {
            Way::Hides { tree: t, node: n } if *t == tree && *n == node => {
                push(out, 0)?;
                return Ok(());
            }
            Way::Swaps {
                tree: t,
                node: n,
                other,
            } if *t == tree && *n == node => from = *other,
            Way::Flips { tree: t, node: n } if *t == tree && *n == node => flips = true,
            _ => {}
        }
        let mut record = self.record(alloc, tree, from)?;
        if flips {
            record[0] ^= 1;
        }
        push(out, 1)?;
        out.extend_from_slice(&record)?;
        Ok(())
    }

    fn answer(&mut self, alloc: Global, body: &[u8]) -> Result<Vec<u8>, LinkFault> {
        if let Way::Answers { bytes } = &self.way {
            return Ok(bytes.to_vec(alloc)?);
        }
        let Ok(request) = RecordsRequest::decode(body) else {
            return Ok([0x81, 7].to_vec(alloc)?);
        };
        let mut out = [0x80].to_vec(alloc)?;
        for at in 0..request.count {
            self.add_row(alloc, request.tree, u64::from(request.first + at), &mut out)?;
        }
        if let Way::Adds { bytes } = &self.way {
            out.extend_from_slice(bytes)?;
        }
        Ok(out)
    }
}

impl BatchLink for RecordsHost {
    ghost use Rattle.std.specs.Prelude.{◌≡◌, [], ⊤};
    ghost use Rattle.std.proofs.Common.{inl};
    ghost use Rattle.oram_rounds.specs.Batches.{IsBatch};

    ghost batches = { λ l bodies o exchanges m. IsBatch bodies o exchanges };

    ghost streams = { λ l bodies answers m. ⊥ };

    ghost notes = { λ l. record { text = []; records = [] } };

    ghost tells = { λ l old. ⊤ };

    ghost learns = { λ l check m. m ≡ l };

    ghost are_batches = { λ l m bodies o exchanges h. h };

    ghost ends_as_batch = { λ l m bodies answers h count. absurd h };

    ghost learning_sends_nothing = { λ l m check same. inl same };

    ghost batches_are_told = { λ l m bodies o exchanges old some h told. tt };

    ghost learning_counts_anew = { λ l m check same. tt };

    fn call_all(
        &mut self,
        alloc: Global,
        first: &[Vec<u8>],
        last: &[Vec<u8>],
    ) -> Result<Vec<Vec<u8>>, LinkFault> {
        if let Way::Fails { at } = self.way {
            if at == self.batches.len() as u64 {
                return Err(LinkFault::Closed);
            }
        }
        let mut answers = Vec::new(alloc);
        let mut asked = Vec::new(alloc);
        for bodies in [first, last] {
            for body in bodies {
                push(&mut answers, self.answer(alloc, body)?)?;
                push(&mut asked, body.to_vec(alloc)?)?;
            }
        }
        push(&mut self.batches, asked)?;
        Ok(answers)
    }

    fn begin(&mut self, _alloc: Global, _first: &[Vec<u8>], _last: &[Vec<u8>]) -> bool {
        false
    }

    fn next_answer(&mut self, _alloc: Global, _body: &[u8]) -> Result<Vec<u8>, LinkFault> {
        Err(LinkFault::Closed)
    }

    fn note(&self, alloc: Global) -> Result<Vec<u8>, AllocError> {
        Ok(Vec::new(alloc))
    }

    fn records(&self) -> LinkRecords<'_> {
        LinkRecords::none()
    }

    fn learn_kept(&mut self, _check: u64) {}
}

impl PipelinedLink for RecordsHost {
    ghost use Rattle.std.specs.Prelude.{⊤};

    ghost asks = { λ _ _ _. ⊤ };

    fn ask(&mut self, alloc: Global, bodies: &[Vec<u8>]) {
        self.asked = Some(copies(alloc, bodies));
    }

    /// Fails if other messages were asked for than these.
    fn answers(&mut self, alloc: Global, bodies: &[Vec<u8>]) -> Result<Vec<Vec<u8>>, LinkFault> {
        match self.asked.take() {
            Some(Ok(asked)) if asked.as_slice() == bodies => self.call_all(alloc, &[], bodies),
            Some(Err(_)) => Err(LinkFault::OutOfMemory),
            _ => Err(LinkFault::TooLarge),
        }
    }
}

/// Copies some messages.
fn copies(alloc: Global, bodies: &[Vec<u8>]) -> Result<Vec<Vec<u8>>, AllocError> {
    let mut all = Vec::new(alloc);
    for body in bodies {
        push(&mut all, body.to_vec(alloc)?)?;
    }
    Ok(all)
}
