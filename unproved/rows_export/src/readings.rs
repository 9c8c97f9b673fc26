//! Readings of a device that was written in memory.

use crate::hosts::{RecordsHost, Way, push};
use crate::images::{Counter, MemoryImage};
use oram_bucket::PlainSeal;
use oram_bytes::Bytes;
use oram_core::{Command, Core};
use oram_export::{
    NoVisit, ReadFault, TreeFindings, TreeToRead, check_disk, export_disk, read_tree,
};
use oram_geometry::Device;
use oram_host::Server;
use oram_pipeline::PipelinedLink;
use oram_records::RecordsRequest;
use oram_rounds::{BatchLink, LinkRecords};
use oram_session::{ChaChaTape, Direct, LinkFault, format_device, resume, submit};
use rows::{Page, RowFault, RowWords, device_in};
use std::alloc::{AllocError, Global};

/// Writes blocks of a new device, each filled with its address plus one, and returns its core and the host. Over a host in memory only a
/// lack of memory makes that fail.
fn written(
    alloc: Global,
    device: Device,
    addresses: &[u32],
) -> Result<(Box<Core<PlainSeal>>, Box<Server>), RowFault> {
    let trees = device.trees();
    let len = device.block_bytes();
    let mut link = Direct::new(alloc, Server::new(alloc));
    let Ok(core) = format_device(alloc, device, PlainSeal, &mut link) else {
        return Err(RowFault::OutOfMemory);
    };
    let mut core = Box::new(alloc, core)?;
    let key = [7; 32];
    let mut tape = ChaChaTape { key, trees };
    for address in addresses {
        let bytes = Bytes::from_vec(vec![in alloc; (*address % 251 + 1) as u8; len]?);
        let command = Command::Write(*address, bytes);
        let _begun = submit(alloc, &mut core, &mut tape, 0, command)?;
        if resume(alloc, &mut core, &mut link).is_err() {
            return Err(RowFault::OutOfMemory);
        }
    }
    Ok((core, Box::new(alloc, link.into_server())?))
}

/// Reads `SIZES writes ADDRESSES.. then`, and a way of the host.
fn device_read(
    alloc: Global,
    words: &mut RowWords,
) -> Result<(Box<Core<PlainSeal>>, Box<RecordsHost>, Vec<u32>), RowFault> {
    let Ok(device) = device_in(words) else {
        return Err(RowFault::NoRow);
    };
    let mut addresses = Vec::new(alloc);
    if !words.takes("writes") {
        return Err(RowFault::NoRow);
    }
    for _ in 0..u64::MAX {
        if words.takes("then") || words.is_empty() {
            break;
        }
        if words.takes("all") {
            for address in 0..device.blocks_in(0) {
                addresses.push(address)?;
            }
        } else {
            addresses.push(words.short())?;
        }
    }
    let way = Way::read(alloc, words)?;
    let mut depths = Vec::new(alloc);
    for tree in 0..device.trees() {
        depths.push(device.depth(tree))?;
    }
    let record_len = device.record_len(0);
    let (core, server) = written(alloc, device, &addresses)?;
    let host = RecordsHost {
        server: Box::into_inner(server),
        depths,
        record_len,
        way,
        batches: Vec::new(alloc),
        asked: None,
    };
    Ok((core, Box::new(alloc, host)?, addresses))
}

/// Writes what was found at each level: how many records are sound, and after them the changed, missing and unchecked ones, if any.
fn show_tree(findings: &TreeFindings, page: &mut Page) {
    page.word("tree");
    for level in findings.levels() {
        page.number(level.sound);
        if level.changed > 0 {
            page.word("changed");
            page.number(level.changed);
        }
        if level.missing > 0 {
            page.word("missing");
            page.number(level.missing);
        }
        if level.unchecked > 0 {
            page.word("unchecked");
            page.number(level.unchecked);
        }
    }
    page.word(if findings.is_whole() { "whole" } else { "lost" });
    if findings.lost() > 0 {
        page.number(findings.lost());
    }
}

/// Writes why a reading ended. A row has no answer if memory ran out.
fn show_fault(fault: ReadFault, page: &mut Page) -> Result<(), RowFault> {
    if matches!(fault, ReadFault::OutOfMemory) {
        return Err(RowFault::OutOfMemory);
    }
    page.fault(fault);
    Ok(())
}

/// `check SIZES writes ADDRESSES.. then WAY`: writes what was found in each tree, and how many nodes were read.
pub(crate) fn check(alloc: Global, words: &mut RowWords, page: &mut Page) -> Result<(), RowFault> {
    let (core, mut host, _written) = device_read(alloc, words)?;
    let mut counter = Counter { nodes: 0 };
    match check_disk(alloc, &core, &mut *host, &mut counter) {
        Ok(trees) => {
            for findings in &trees {
                show_tree(findings, page);
            }
        }
        Err(fault) => show_fault(fault, page)?,
    }
    page.word("nodes");
    page.number(counter.nodes);
    Ok(())
}

/// `export SIZES writes ADDRESSES.. then WAY [room ROOM]`: writes what was found, and the image: how many blocks have what was written to
/// them, how many that were written are zeros, and how many are anything else.
pub(crate) fn export(alloc: Global, words: &mut RowWords, page: &mut Page) -> Result<(), RowFault> {
    let (core, mut host, addresses) = device_read(alloc, words)?;
    let room = if words.takes("room") {
        words.number()
    } else {
        u64::MAX
    };
    let blocks = core.device().blocks_in(0) as usize;
    let Some(mut image) = MemoryImage::new(alloc, blocks, room) else {
        return Err(RowFault::OutOfMemory);
    };
    let mut counter = Counter { nodes: 0 };
    match export_disk(
        alloc,
        &core,
        &PlainSeal,
        &mut *host,
        &mut image,
        &mut counter,
    ) {
        Ok(findings) => show_tree(&findings, page),
        Err(fault) => {
            return show_fault(fault, page);
        }
    }
    let (mut right, mut zeros, mut wrong) = (0u64, 0u64, 0u64);
    for address in 0..blocks {
        let was_written = addresses.iter().any(|a| *a as usize == address);
        let expected = (address % 251 + 1) as u8;
        match image.blocks[address] {
            Some(byte) if was_written && byte == expected => right += 1,
            None if !was_written => right += 1,
            Some(0) if !was_written => right += 1,
            None => zeros += 1,
            Some(_) => wrong += 1,
        }
    }
    page.word("right");
    page.number(right);
    page.word("zeros");
    page.number(zeros);
    page.word("wrong");
    page.number(wrong);
    Ok(())
}

/// `asked TREE DEPTH RECORD_LEN`: reads such a tree, of which the host has no record, and writes the bodies of each batch.
pub(crate) fn asked(alloc: Global, words: &mut RowWords, page: &mut Page) -> Result<(), RowFault> {
    let to_read = TreeToRead {
        tree: words.byte(),
        depth: words.byte(),
        record_len: words.size(),
        root: [0; 32],
    };
    let mut host = EmptyHost {
        batches: Vec::new(alloc),
    };
    let mut counter = Counter { nodes: 0 };
    match read_tree(alloc, &mut host, &to_read, &NoVisit, &mut (), &mut counter) {
        Ok(findings) => show_tree(&findings, page),
        Err(fault) => show_fault(fault, page)?,
    }
    for batch in &host.batches {
        page.word("batch");
        page.number(batch.len() as u64);
        for (index, body) in batch.iter().enumerate() {
            if index < 2 || index + 1 == batch.len() {
                page.bytes(body);
            }
        }
    }
    Ok(())
}

/// A host that has no record.
#[derive(Drop)]
pub(crate) struct EmptyHost {
    pub(crate) batches: Vec<Vec<Vec<u8>>>,
}

impl BatchLink for EmptyHost {
    ghost use Rattle.std.specs.Prelude.{◌≡◌, [], ⊤};
    ghost use Rattle.std.proofs.Common.{inl};
    ghost use Rattle.oram_rounds.specs.Batches.{IsBatch};

    ghost batches = { λ l bodies o exchanges m. IsBatch bodies o exchanges };

    ghost streams = { λ l bodies answers m. ⊥ };

    ghost notes = { λ l. record { text = []; records = [] } };

    ghost tells = { λ l old. ⊤ };

    ghost learns = { λ l check m. m ≡ l };

    ghost are_batches = { λ l m bodies o exchanges h. h };

    ghost ends_as_batch = { λ l m bodies answers h count. absurd h };

    ghost learning_sends_nothing = { λ l m check same. inl same };

    ghost batches_are_told = { λ l m bodies o exchanges old some h told. tt };

    ghost learning_counts_anew = { λ l m check same. tt };

    fn call_all(
        &mut self,
        alloc: Global,
        _first: &[Vec<u8>],
        last: &[Vec<u8>],
    ) -> Result<Vec<Vec<u8>>, LinkFault> {
        let mut answers = Vec::new(alloc);
        let mut asked = Vec::new(alloc);
        for body in last {
            let Ok(request) = RecordsRequest::decode(body) else {
                return Err(LinkFault::Closed);
            };
            let mut answer = [0x80].to_vec(alloc)?;
            for _ in 0..request.count {
                push(&mut answer, 0)?;
            }
            push(&mut answers, answer)?;
            push(&mut asked, body.to_vec(alloc)?)?;
        }
        push(&mut self.batches, asked)?;
        Ok(answers)
    }

    fn begin(&mut self, _alloc: Global, _first: &[Vec<u8>], _last: &[Vec<u8>]) -> bool {
        false
    }

    fn next_answer(&mut self, _alloc: Global, _body: &[u8]) -> Result<Vec<u8>, LinkFault> {
        Err(LinkFault::Closed)
    }

    fn note(&self, alloc: Global) -> Result<Vec<u8>, AllocError> {
        Ok(Vec::new(alloc))
    }

    fn records(&self) -> LinkRecords<'_> {
        LinkRecords::none()
    }

    fn learn_kept(&mut self, _check: u64) {}
}

impl PipelinedLink for EmptyHost {
    ghost use Rattle.std.specs.Prelude.{◌≡◌};

    ghost asks = { λ l bodies k. k ≡ l };

    fn ask(&mut self, _alloc: Global, _bodies: &[Vec<u8>]) {}

    fn answers(&mut self, alloc: Global, bodies: &[Vec<u8>]) -> Result<Vec<Vec<u8>>, LinkFault> {
        self.call_all(alloc, &[], bodies)
    }
}
