//! Rows of formattings whose messages aren't sent, and of the paths that a client then makes itself.
//!
//! Each call formats the device twice, once into a list of messages and once into a sink that only collects what a client keeps.
//! `SEALER` is `plain` or `chacha KEY`.

use oram_bucket::{ChaChaSeal, PlainSeal, Sealer};
use oram_core::Core;
use oram_empty::{EmptyDigests, FormatSink, digests_len};
use oram_geometry::Device;
use oram_hash::{HashFault, check_path, node_digest};
use oram_wire::{HostView, ListSink};
use rows::{Groups, Page, RowFault, RowWords};
use std::alloc::Global;

/// A device that was formatted twice: the messages of one formatting, and what the sink has collected of the other.
#[derive(Drop)]
struct Formatted<S: Sealer> {
    device: Device,
    sealer: S,
    bodies: Vec<Vec<u8>>,
    /// The records of the near nodes, and behind them the digests.
    kept: Vec<u8>,
    /// The number of bytes of these records.
    near_len: usize,
}

impl<S: Sealer + Copy> Formatted<S> {
    /// Formats the device. Fails with [`RowFault::NoRow`] if tree 0 has fewer than `near` levels above its leaves.
    fn new(alloc: Global, device: &Device, sealer: S, near: u8) -> Result<Formatted<S>, RowFault> {
        if near > device.depth(0) {
            return Err(RowFault::NoRow);
        }
        let mut list = ListSink::new(alloc);
        let mut sink = FormatSink::new(alloc, device, sealer.overhead(), near)?;
        let listed = Core::format(alloc, device.copy(), sealer, &mut list);
        let collected = Core::format(alloc, device.copy(), sealer, &mut sink);
        if listed.is_err() || collected.is_err() {
            return Err(RowFault::OutOfMemory);
        }
        let kept = sink.into_bytes();
        let near_len = kept.len() - digests_len(device);
        Ok(Formatted {
            device: device.copy(),
            sealer,
            bodies: list.into_bodies(),
            kept,
            near_len,
        })
    }

    /// Returns the bytes of the digests.
    fn digest_bytes(&self) -> &[u8] {
        &self.kept[self.near_len..]
    }

    /// Returns the record that the messages put at a node.
    fn record(&self, tree: u8, node: u32) -> &[u8] {
        for body in &self.bodies {
            if let Ok(
                HostView::Put {
                    tree: put_tree,
                    node: put_node,
                    bytes,
                },
            ) = HostView::read(body)
                && put_tree == tree
                && put_node == node
            {
                return bytes;
            }
        }
        &[]
    }

    /// Returns the records that the messages put on a leaf's path, from level `first` on.
    fn path(&self, alloc: Global, tree: u8, leaf: u32, first: u8) -> Result<Vec<u8>, RowFault> {
        let mut path = Vec::new(alloc);
        for level in first..=self.device.depth(tree) {
            path.extend_from_slice(self.record(tree, self.device.node_on(tree, leaf, level)))?;
        }
        Ok(path)
    }

    /// Returns the records that a client makes for the same levels.
    fn made(&self, alloc: Global, tree: u8, leaf: u32, first: u8) -> Result<Vec<u8>, RowFault> {
        let mut path = Vec::new(alloc);
        let digests = EmptyDigests::from_bytes(&self.device, self.digest_bytes()).ok_or(
            RowFault::NoRow,
        )?;
        digests.append_path(alloc, &self.sealer, tree, leaf, first, &mut path)?;
        Ok(path)
    }

    /// `format paths SEALER`: writes how many paths a client makes as they were put, for each leaf of each tree and each first level.
    fn paths(&self, alloc: Global, page: &mut Page) -> Result<(), RowFault> {
        let (mut alike, mut all) = (0, 0);
        for tree in 0..self.device.trees() {
            let depth = self.device.depth(tree);
            for leaf in 0..1 << depth {
                for first in 0..=depth {
                    let put = self.path(alloc, tree, leaf, first)?;
                    let made = self.made(alloc, tree, leaf, first)?;
                    alike += u32::from(put.as_slice() == made.as_slice());
                    all += 1;
                }
            }
        }
        show_alike(alike, all, page);
        Ok(())
    }

    /// `format near NEAR SEALER`: writes how many records of the nodes of the top `NEAR` levels of tree 0 were collected as they were put.
    fn near(&self, page: &mut Page) -> Result<(), RowFault> {
        let record_len = self.device.record_len(self.sealer.overhead());
        let (mut alike, mut all) = (0, 0);
        for near in self.kept[..self.near_len].chunks_exact(record_len) {
            alike += u32::from(near == self.record(0, all));
            all += 1;
        }
        show_alike(alike, all, page);
        Ok(())
    }

    /// `format digests SEALER`: writes how many bytes the digests have, and the digest of these.
    fn digests(&self, page: &mut Page) -> Result<(), RowFault> {
        page.number(self.digest_bytes().len());
        page.bytes(&node_digest(self.digest_bytes()));
        Ok(())
    }

    /// `format damaged PLACE SEALER`: flips the lowest bit of a byte of the digests, and writes how a check of the path of each leaf of
    /// tree 0 ends.
    fn damaged(mut self, alloc: Global, place: usize, page: &mut Page) -> Result<(), RowFault> {
        let root = node_digest(self.record(0, 0));
        match self.kept.get_mut(self.near_len + place) {
            Some(byte) => *byte ^= 1,
            None => return Err(RowFault::NoRow),
        }
        let overhead = self.sealer.overhead();
        let mut groups = Groups::new(alloc);
        let mut said = Page::new(alloc);
        for leaf in 0..1 << self.device.depth(0) {
            let path = self.made(alloc, 0, leaf, 0)?;
            match check_path(&self.device, 0, leaf, overhead, &root, &path) {
                Ok(_) => said.word("accepted"),
                Err(HashFault::Length) => said.word("length"),
                Err(HashFault::Tampered(level)) => {
                    said.word("tampered");
                    said.number(level);
                }
            }
            groups.add(u64::from(leaf), &said, page);
            said.clear();
        }
        groups.end(page);
        Ok(())
    }
}

/// Writes how many of all are alike.
fn show_alike(alike: u32, all: u32, page: &mut Page) {
    page.number(alike);
    page.word("of");
    page.number(all);
    page.word("alike");
}

/// `format bytes LEN`: writes whether so many bytes can be the digests of the device.
fn bytes(
    alloc: Global,
    device: &Device,
    words: &mut RowWords,
    page: &mut Page,
) -> Result<(), RowFault> {
    let bytes = vec![in alloc; 0; words.size()]?;
    page.flag(EmptyDigests::from_bytes(device, &bytes).is_some());
    page.number(digests_len(device));
    Ok(())
}

/// Makes a call with this sealer. `number` is the word before the sealer, if there is one.
fn call<S: Sealer + Copy>(
    alloc: Global,
    device: &Device,
    name: &str,
    number: usize,
    sealer: S,
    page: &mut Page,
) -> Result<(), RowFault> {
    let near = if name == "near" {
        u8::try_from(number)?
    } else {
        0
    };
    let formatted = Formatted::new(alloc, device, sealer, near)?;
    match name {
        "paths" => formatted.paths(alloc, page),
        "near" => formatted.near(page),
        "digests" => formatted.digests(page),
        "damaged" => formatted.damaged(alloc, number, page),
        _ => Err(RowFault::NoRow),
    }
}

/// Makes a call.
pub fn answer(
    alloc: Global,
    device: &Device,
    words: &mut RowWords,
    page: &mut Page,
) -> Result<(), RowFault> {
    let name = words.text();
    if name == "bytes" {
        return bytes(alloc, device, words, page);
    }
    let number = match name {
        "near" | "damaged" => words.size(),
        _ => 0,
    };
    match words.text() {
        "plain" => call(alloc, device, name, number, PlainSeal, page),
        "chacha" => {
            let key = words.array(alloc);
            call(alloc, device, name, number, ChaChaSeal { key }, page)
        }
        _ => Err(RowFault::NoRow),
    }
}
