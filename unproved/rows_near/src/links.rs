//! Rows of one link over a host in memory.

use crate::devices::Numbers;
use crate::empties::LevelBytes;
use crate::hosts::{Host, HostLink, HostPlace, Way};
use oram_geometry::Device;
use oram_near::{NearChanges, NearLink, NearRecords, near_levels};
use oram_rounds::BatchLink;
use oram_session::LinkFault;
use rows::{Page, RowFault, RowWords};
use std::alloc::Global;

/// The newest link.
#[derive(Drop)]
pub(crate) struct Links<'a> {
    place: &'a HostPlace,
    link: Option<NearLink<HostLink<'a>, LevelBytes>>,
}

/// What a link begins with.
#[derive(Drop)]
struct Parts {
    numbers: Numbers,
    device: Device,
    empty: LevelBytes,
    near: NearRecords,
}

/// Reads a device, the length of its records, the number of the near levels, and the near records with the rest behind them.
fn parts_in(alloc: Global, words: &mut RowWords) -> Result<Parts, RowFault> {
    let numbers = Numbers::read(words);
    let device = numbers.device()?;
    let record_len = words.size();
    let levels = words.byte();
    let bytes = words.bytes(alloc);
    if levels > device.depth(0) || record_len == 0 {
        return Err(RowFault::NoRow);
    }
    let Some(rest_len) = bytes.len().checked_sub(((1 << levels) - 1) * record_len) else {
        return Err(RowFault::NoRow);
    };
    let near = NearRecords::new(alloc, &device, record_len, levels, bytes)?;
    let empty = LevelBytes {
        device: numbers.device()?,
        record_len,
        rest_len,
    };
    Ok(Parts {
        numbers,
        device,
        empty,
        near,
    })
}

/// `levels DEVICE OVERHEAD MOST`: writes how many levels of tree 0 have room in so many bytes.
fn levels(words: &mut RowWords, page: &mut Page) -> Result<(), RowFault> {
    let device = Numbers::read(words).device()?;
    let overhead = words.size();
    page.number(near_levels(&device, overhead, words.size()));
    Ok(())
}

impl<'a> Links<'a> {
    pub(crate) fn new(place: &'a HostPlace) -> Links<'a> {
        Links { place, link: None }
    }

    /// Makes the call of this name on the link.
    pub(crate) fn make(
        &mut self,
        alloc: Global,
        call: &str,
        words: &mut RowWords,
        page: &mut Page,
    ) -> Result<(), RowFault> {
        match call {
            "levels" => levels(words, page),
            "begin" => self.begin(alloc, words, page),
            "resume" => self.resume(alloc, words, page),
            "call" => self.call(alloc, words, page),
            "stream" => self.stream(alloc, words, page),
            "unbegun" => self.unbegun(alloc, words, page),
            "near" => self.near(page),
            "changes" => self.changes(page),
            "forget" => self.forget(page),
            _ => Err(RowFault::NoRow),
        }
    }

    fn link(&mut self) -> Result<&mut NearLink<HostLink<'a>, LevelBytes>, RowFault> {
        match &mut self.link {
            Some(link) => Ok(link),
            None => Err(RowFault::NoRow),
        }
    }

    /// `begin DEVICE RECORD_LEN LEVELS NEAR`: makes a link over a host that has no record.
    fn begin(
        &mut self,
        alloc: Global,
        words: &mut RowWords,
        page: &mut Page,
    ) -> Result<(), RowFault> {
        let parts = parts_in(alloc, words)?;
        let host = Host::new(alloc, parts.numbers.device()?, parts.near.record_len());
        self.place.put(host);
        let inner = HostLink { place: self.place };
        let link = NearLink::new(alloc, inner, parts.empty, parts.device, parts.near);
        page.number(link.near().levels());
        self.link = Some(link);
        Ok(())
    }

    /// `resume DEVICE RECORD_LEN LEVELS NEAR STORE ..`: makes the link of a new process over the same host, with these STOREs as those that
    /// were kept.
    fn resume(
        &mut self,
        alloc: Global,
        words: &mut RowWords,
        page: &mut Page,
    ) -> Result<(), RowFault> {
        let parts = parts_in(alloc, words)?;
        let stores = words.bodies(alloc);
        let inner = HostLink { place: self.place };
        match NearLink::with_unsure(alloc, inner, parts.empty, parts.device, parts.near, &stores) {
            Ok(link) => {
                page.number(link.near().levels());
                self.link = Some(link);
            }
            Err(LinkFault::OutOfMemory) => return Err(RowFault::OutOfMemory),
            Err(fault) => page.fault(fault),
        }
        Ok(())
    }

    /// `call WAY FIRST BODY ..`: sends a batch, whose first `FIRST` bodies are handed over apart from the others. Writes the answers, or the
    /// fault, and which messages the host was sent.
    fn call(
        &mut self,
        alloc: Global,
        words: &mut RowWords,
        page: &mut Page,
    ) -> Result<(), RowFault> {
        self.place.set(Way::read(alloc, words)?)?;
        let first = words.size();
        let bodies = words.bodies(alloc);
        if first > bodies.len() {
            return Err(RowFault::NoRow);
        }
        match self
            .link()?
            .call_all(alloc, &bodies[..first], &bodies[first..])
        {
            Ok(answers) => {
                for answer in &answers {
                    page.bytes(answer);
                }
            }
            Err(LinkFault::OutOfMemory) => return Err(RowFault::OutOfMemory),
            Err(fault) => page.fault(fault),
        }
        page.part();
        self.sent(page)
    }

    /// `stream WAY FIRST BODY ..`: begins a batch, and takes its answers one by one until one doesn't come. Writes the answers, the fault, and which
    /// messages the host was sent. If no batch is begun, memory has run out.
    fn stream(
        &mut self,
        alloc: Global,
        words: &mut RowWords,
        page: &mut Page,
    ) -> Result<(), RowFault> {
        self.place.set(Way::read(alloc, words)?)?;
        let first = words.size();
        let bodies = words.bodies(alloc);
        if first > bodies.len() {
            return Err(RowFault::NoRow);
        }
        let link = self.link()?;
        if !link.begin(alloc, &bodies[..first], &bodies[first..]) {
            return Err(RowFault::OutOfMemory);
        }
        for body in &bodies {
            match link.next_answer(alloc, body) {
                Ok(answer) => page.bytes(&answer),
                Err(LinkFault::OutOfMemory) => return Err(RowFault::OutOfMemory),
                Err(fault) => {
                    page.fault(fault);
                    break;
                }
            }
        }
        page.part();
        self.sent(page)
    }

    /// `unbegun WAY FIRST BODY ..`: tries to begin a batch, where none is begun. Writes whether the link below was asked to begin one, and which
    /// messages the host was sent. A way by which it declines needs that it was asked; if not, memory has run out.
    fn unbegun(
        &mut self,
        alloc: Global,
        words: &mut RowWords,
        page: &mut Page,
    ) -> Result<(), RowFault> {
        let way = Way::read(alloc, words)?;
        let declines = matches!(way, Way::Declines);
        self.place.set(way)?;
        let first = words.size();
        let bodies = words.bodies(alloc);
        if first > bodies.len() {
            return Err(RowFault::NoRow);
        }
        let begun = self
            .link()?
            .begin(alloc, &bodies[..first], &bodies[first..]);
        let host = self.place.take()?;
        let asked = host.asked;
        self.place.put(host);
        if declines && !asked {
            return Err(RowFault::OutOfMemory);
        }
        page.word(match (begun, asked) {
            (true, _) => "begun",
            (false, true) => "declined",
            (false, false) => "unasked",
        });
        page.part();
        self.sent(page)
    }

    fn sent(&mut self, page: &mut Page) -> Result<(), RowFault> {
        let host = self.place.take()?;
        page.word("sent");
        for body in &host.sent {
            page.bytes(body);
        }
        self.place.put(host);
        Ok(())
    }

    /// `near`: writes the near records.
    fn near(&mut self, page: &mut Page) -> Result<(), RowFault> {
        page.bytes(self.link()?.near().bytes());
        Ok(())
    }

    /// `changes`: writes the nodes whose near records may have changed.
    fn changes(&mut self, page: &mut Page) -> Result<(), RowFault> {
        match self.link()?.near().changes() {
            NearChanges::Any => page.word("any"),
            NearChanges::Nodes(nodes) => {
                page.word("nodes");
                for node in nodes {
                    page.number(*node);
                }
            }
        }
        Ok(())
    }

    /// `forget`: forgets the changes.
    fn forget(&mut self, page: &mut Page) -> Result<(), RowFault> {
        self.link()?.forget_changes();
        page.word("done");
        Ok(())
    }
}
