//! Rows of one tree without a sealer, with its host. Blocks are written `ADDRESS:LEAF:DATA`.

mod accesses;
mod random;

use crate::lists::short_of;
use crate::paths::{MadePath, bucket_len, made_path};
use crate::trees::accesses::{AccessWords, Target, access, stored, tell_host};
use oram_bucket::{Block, PlainSeal};
use oram_geometry::Device;
use oram_host::Server;
use oram_tree::{Edit, Lookup, PartsFault, Tree, TreeParts};
use oram_wire::{HostRequest, ListSink};
use rows::{Page, RowFault, RowWords, host_of};
use std::alloc::{AllocError, Global};

/// The parts of a tree, its host, and the messages that formatted it, which are kept from row to row.
#[derive(Drop)]
pub struct Trees {
    number: u8,
    parts: Option<TreeParts>,
    host: Server,
    messages: Vec<Vec<u8>>,
}

/// Makes the tree with these parts; `None` if no tree has them.
pub fn tree_of(
    alloc: Global,
    device: &Device,
    number: u8,
    parts: TreeParts,
) -> Result<Option<Tree>, RowFault> {
    match Tree::from_parts(alloc, device, number, parts) {
        Ok(tree) => Ok(Some(tree)),
        Err(PartsFault::Content) => Ok(None),
        Err(PartsFault::OutOfMemory) => Err(RowFault::OutOfMemory),
    }
}

/// Fails with [`RowFault::NoRow`] if the device has no tree of this number.
fn check_number(device: &Device, number: u8) -> Result<(), RowFault> {
    if number >= device.trees() {
        return Err(RowFault::NoRow);
    }
    Ok(())
}

/// Reads the block in a word.
fn block_of(alloc: Global, word: &str) -> Result<Block, RowFault> {
    let Some((address, rest)) = word.split_once(':') else {
        return Err(RowFault::NoRow);
    };
    let Some((leaf, bytes)) = rest.split_once(':') else {
        return Err(RowFault::NoRow);
    };
    let mut part = RowWords::of(bytes);
    let content = part.bytes(alloc);
    part.check()?;
    Ok(Block {
        address: short_of(address)?,
        leaf: short_of(leaf)?,
        content,
    })
}

/// Makes the parts of a tree with this root digest, and with the blocks in all words that are left.
fn parts_of(alloc: Global, root: [u8; 32], words: &mut RowWords) -> Result<TreeParts, RowFault> {
    let mut stash = Vec::new(alloc);
    for word in &words.texts(alloc) {
        stash.push(block_of(alloc, word)?)?;
    }
    Ok(TreeParts { root, stash })
}

/// Writes a block.
fn show_block(alloc: Global, block: &Block, page: &mut Page) {
    let (address, leaf) = (block.address, block.leaf);
    let word: Result<String, AllocError> = format!(in alloc; "{address}:{leaf}:");
    page.made(word);
    page.bytes_behind(&block.content);
}

/// Writes the result of an access.
fn show_lookup(lookup: &Lookup, page: &mut Page) {
    page.word(if lookup.found { "found" } else { "absent" });
    page.bytes(&lookup.before);
}

/// An edit, with the data that a block gets.
#[derive(Drop)]
enum OwnedEdit {
    Keep,
    Replace(Vec<u8>),
    Entry(usize, u32),
}

impl OwnedEdit {
    /// Reads an edit from the words `keep`, `replace DATA` or `entry INDEX VALUE`.
    fn read(alloc: Global, words: &mut RowWords) -> Result<OwnedEdit, RowFault> {
        match words.text() {
            "keep" => Ok(OwnedEdit::Keep),
            "replace" => Ok(OwnedEdit::Replace(words.bytes(alloc))),
            "entry" => Ok(OwnedEdit::Entry(words.size(), words.short())),
            _ => Err(RowFault::NoRow),
        }
    }

    fn lent(&self) -> Edit<'_> {
        match self {
            OwnedEdit::Keep => Edit::Keep,
            OwnedEdit::Replace(data) => Edit::Replace(data),
            OwnedEdit::Entry(index, value) => Edit::Entry(*index, *value),
        }
    }
}

/// Formats a tree. Returns the messages, and the parts of the tree. A list of messages refuses one only if memory ran out.
fn formatted(
    alloc: Global,
    device: &Device,
    number: u8,
    nonce: u32,
) -> Result<(Vec<Vec<u8>>, TreeParts), RowFault> {
    check_number(device, number)?;
    let mut sink = ListSink::new(alloc);
    match Tree::format(
        alloc,
        device,
        number,
        &PlainSeal,
        u64::from(nonce),
        &mut sink,
    ) {
        Ok(tree) => Ok((sink.into_bodies(), tree.parts(alloc)?)),
        Err(_) => Err(RowFault::OutOfMemory),
    }
}

/// Makes a host that has one path of a tree and nothing else.
fn host_with_path(
    alloc: Global,
    device: &Device,
    number: u8,
    leaf: u32,
    path: &[u8],
) -> Result<Server, RowFault> {
    let shape = shape_of(device, number)?;
    let mut host = Server::new(alloc);
    tell_host(alloc, &mut host, &shape.encode(alloc)?)?;
    stored(alloc, &mut host, number, leaf, path)?;
    Ok(host)
}

/// Returns the request that gives a tree its shape.
fn shape_of(device: &Device, number: u8) -> Result<HostRequest, RowFault> {
    check_number(device, number)?;
    Ok(HostRequest::Shape {
        tree: number,
        depth: device.depth(number),
        record_len: device.record_len(0) as u32,
    })
}

/// Returns the depth of a tree.
fn depth_in(device: &Device, number: u8) -> Result<usize, RowFault> {
    check_number(device, number)?;
    Ok(usize::from(device.depth(number)))
}

/// Makes a path of empty buckets.
fn empty_path(alloc: Global, device: &Device, number: u8, leaf: u32) -> Result<MadePath, RowFault> {
    let mut empty = vec![in alloc; 0; depth_in(device, number)?]?;
    empty.push(0)?;
    Ok(made_path(alloc, leaf, bucket_len(device), &empty)?)
}

impl Trees {
    pub fn new(alloc: Global) -> Trees {
        Trees {
            number: 0,
            parts: None,
            host: Server::new(alloc),
            messages: Vec::new(alloc),
        }
    }

    /// Takes out the kept parts.
    fn take_parts(&mut self) -> Result<TreeParts, RowFault> {
        match self.parts.take() {
            Some(parts) => Ok(parts),
            None => Err(RowFault::NoRow),
        }
    }

    /// Returns the kept parts.
    fn parts(&self) -> Result<&TreeParts, RowFault> {
        match &self.parts {
            Some(parts) => Ok(parts),
            None => Err(RowFault::NoRow),
        }
    }

    /// `tree format TREE NONCE`: formats a tree, and writes how many messages that takes.
    fn format(
        &mut self,
        alloc: Global,
        device: &Device,
        words: &mut RowWords,
        page: &mut Page,
    ) -> Result<(), RowFault> {
        self.number = words.byte();
        let (messages, parts) = formatted(alloc, device, self.number, words.short())?;
        self.host = host_of(alloc, &messages)?;
        page.number(messages.len());
        page.word("messages");
        self.parts = Some(parts);
        self.messages = messages;
        Ok(())
    }

    /// `tree message NUMBER`: writes the bytes of a message of the formatting.
    fn message(&self, words: &mut RowWords, page: &mut Page) -> Result<(), RowFault> {
        match self.messages.get(words.size()) {
            Some(message) => page.bytes(message),
            None => return Err(RowFault::NoRow),
        }
        Ok(())
    }

    /// `tree puts`: writes the nodes in the order in which the formatting puts their records.
    fn puts(&self, page: &mut Page) -> Result<(), RowFault> {
        for message in &self.messages {
            if let [3, _, a, b, c, d, ..] = message.as_slice() {
                page.number(u32::from_be_bytes([*a, *b, *c, *d]));
            }
        }
        Ok(())
    }

    /// `tree root`: writes the digest of the root's record.
    fn root(&self, page: &mut Page) -> Result<(), RowFault> {
        page.bytes(&self.parts()?.root);
        Ok(())
    }

    /// `tree stash`: writes the blocks of the stash, or `-`.
    fn stash(&self, alloc: Global, page: &mut Page) -> Result<(), RowFault> {
        let parts = self.parts()?;
        if parts.stash.is_empty() {
            page.word("-");
        }
        for block in &parts.stash {
            show_block(alloc, block, page);
        }
        Ok(())
    }

    /// Replaces the kept tree by the one with these parts. Writes how many blocks are in its stash, or `content` if
    /// there is no such tree.
    fn take_tree(
        &mut self,
        alloc: Global,
        device: &Device,
        parts: TreeParts,
        page: &mut Page,
    ) -> Result<(), RowFault> {
        check_number(device, self.number)?;
        match tree_of(alloc, device, self.number, parts)? {
            Some(tree) => {
                page.number(tree.stash_len());
                self.parts = Some(tree.parts(alloc)?);
            }
            None => page.word("content"),
        }
        Ok(())
    }

    /// `tree made TREE ROOT BLOCKS`: makes the tree with these parts.
    fn made(
        &mut self,
        alloc: Global,
        device: &Device,
        words: &mut RowWords,
        page: &mut Page,
    ) -> Result<(), RowFault> {
        self.number = words.byte();
        let root = words.array(alloc);
        let parts = parts_of(alloc, root, words)?;
        self.take_tree(alloc, device, parts, page)
    }

    /// `tree again`: rebuilds the kept tree from its parts.
    fn again(&mut self, alloc: Global, device: &Device, page: &mut Page) -> Result<(), RowFault> {
        let parts = self.take_parts()?;
        self.take_tree(alloc, device, parts, page)
    }

    /// `tree bare TREE LEAF BLOCKS`: makes a tree with these blocks in its stash and empty buckets on one path, the
    /// only path that its host knows.
    fn bare(
        &mut self,
        alloc: Global,
        device: &Device,
        words: &mut RowWords,
        page: &mut Page,
    ) -> Result<(), RowFault> {
        self.number = words.byte();
        let leaf = words.short();
        let MadePath { bytes, root } = empty_path(alloc, device, self.number, leaf)?;
        self.host = host_with_path(alloc, device, self.number, leaf, &bytes)?;
        let parts = parts_of(alloc, root, words)?;
        self.take_tree(alloc, device, parts, page)
    }

    /// Makes the access that the words name. Writes whether the block was found, and its data before the edit. Returns
    /// the records, after the bytes of `front` if there are some.
    fn reach(
        &mut self,
        alloc: Global,
        device: &Device,
        front: Option<Vec<u8>>,
        words: &mut RowWords,
        page: &mut Page,
    ) -> Result<Vec<u8>, RowFault> {
        let wanted = AccessWords::read(words);
        let edit = OwnedEdit::read(alloc, words)?;
        let target = Target {
            device,
            number: self.number,
            parts: self.take_parts()?,
            host: &mut self.host,
        };
        let reached = access(alloc, &PlainSeal, target, wanted, edit.lent(), front)?;
        show_lookup(&reached.lookup, page);
        self.parts = Some(reached.parts);
        Ok(reached.records)
    }

    /// `tree access ADDRESS OLD_LEAF NEW_LEAF NONCE EDIT`: makes an access with the edit `keep`, `replace DATA` or
    /// `entry INDEX VALUE`. Writes whether the block was found, and its data before the edit.
    fn access(
        &mut self,
        alloc: Global,
        device: &Device,
        words: &mut RowWords,
        page: &mut Page,
    ) -> Result<(), RowFault> {
        let _records = self.reach(alloc, device, None, words, page)?;
        Ok(())
    }

    /// `tree behind BYTES ADDRESS OLD_LEAF NEW_LEAF NONCE EDIT`: the same, and writes the records after these bytes.
    fn behind(
        &mut self,
        alloc: Global,
        device: &Device,
        words: &mut RowWords,
        page: &mut Page,
    ) -> Result<(), RowFault> {
        let front = words.bytes(alloc);
        let records = self.reach(alloc, device, Some(front), words, page)?;
        page.bytes(&records);
        Ok(())
    }

    /// Makes a call. `random` makes many accesses, and compares them with a plain map.
    pub fn answer(
        &mut self,
        alloc: Global,
        device: &Device,
        words: &mut RowWords,
        page: &mut Page,
    ) -> Result<(), RowFault> {
        match words.text() {
            "format" => self.format(alloc, device, words, page),
            "message" => self.message(words, page),
            "puts" => self.puts(page),
            "root" => self.root(page),
            "stash" => self.stash(alloc, page),
            "made" => self.made(alloc, device, words, page),
            "again" => self.again(alloc, device, page),
            "bare" => self.bare(alloc, device, words, page),
            "access" => self.access(alloc, device, words, page),
            "behind" => self.behind(alloc, device, words, page),
            "random" => random::accesses(alloc, device, words, page),
            _ => Err(RowFault::NoRow),
        }
    }
}
