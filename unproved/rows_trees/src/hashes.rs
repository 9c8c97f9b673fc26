//! Rows of hashed paths. `hash path` makes a path of tree 0, which the other rows read.

use crate::leaves::has_leaf;
use crate::lists;
use crate::paths::{bucket_len, made_path};
use oram_geometry::Device;
use oram_hash::{HashFault, PathView, check_path, node_digest, rebuild};
use rows::{Groups, Page, RowFault, RowWords};
use std::alloc::{AllocError, Global};

/// The leaf and the bytes of a path, which are kept from row to row.
#[derive(Drop)]
pub struct Hashes {
    leaf: u32,
    bytes: Vec<u8>,
}

/// Checks bytes as the path of a leaf with this root digest. Fails with [`RowFault::NoRow`] if the tree doesn't have
/// the leaf.
fn checked<'a>(
    device: &Device,
    leaf: u32,
    root: &[u8; 32],
    bytes: &'a [u8],
) -> Result<Result<PathView<'a>, HashFault>, RowFault> {
    if !has_leaf(device, 0, leaf) {
        return Err(RowFault::NoRow);
    }
    Ok(check_path(device, 0, leaf, 0, root, bytes))
}

/// Returns the same path. Fails if it isn't accepted.
fn accepted<'a>(
    device: &Device,
    leaf: u32,
    root: &[u8; 32],
    bytes: &'a [u8],
) -> Result<PathView<'a>, RowFault> {
    match checked(device, leaf, root, bytes)? {
        Ok(view) => Ok(view),
        Err(_) => Err(RowFault::NoRow),
    }
}

/// Writes the result of a check.
fn show(checked: Result<PathView<'_>, HashFault>, page: &mut Page) {
    match checked {
        Ok(_) => page.word("accepted"),
        Err(HashFault::Length) => page.word("length"),
        Err(HashFault::Tampered(level)) => {
            page.word("tampered");
            page.number(level);
        }
    }
}

/// Flips the lowest bit of a byte, if there is one at this place.
fn flip(bytes: &mut [u8], place: usize) {
    if let Some(byte) = bytes.get_mut(place) {
        *byte ^= 1;
    }
}

/// `hash digest BYTES`: writes the digest of a record.
fn digest(alloc: Global, words: &mut RowWords, page: &mut Page) -> Result<(), RowFault> {
    let record = words.bytes(alloc);
    page.bytes(&node_digest(&record));
    Ok(())
}

/// Makes one sealed bucket of `len` bytes for each byte of `fills`, and repeats that byte in it.
fn sealed(alloc: Global, fills: &[u8], len: usize) -> Result<Vec<Vec<u8>>, AllocError> {
    let mut parts = Vec::new(alloc);
    for fill in fills {
        parts.push(vec![in alloc; *fill; len]?)?;
    }
    Ok(parts)
}

/// Returns whether these are the sealed buckets of a path of tree 0.
fn are_buckets(device: &Device, parts: &[Vec<u8>]) -> bool {
    let record_len = device.record_len(0);
    parts.len() == usize::from(device.depth(0)) + 1
        && parts.iter().all(|part| part.len() + 64 == record_len)
}

impl Hashes {
    pub fn new(alloc: Global) -> Hashes {
        Hashes {
            leaf: 0,
            bytes: Vec::new(alloc),
        }
    }

    /// `hash path LEAF FILLS`: makes a path whose records are filled with these bytes, and writes its root digest.
    fn path(
        &mut self,
        alloc: Global,
        device: &Device,
        words: &mut RowWords,
        page: &mut Page,
    ) -> Result<(), RowFault> {
        self.leaf = words.short();
        let fills = lists::fills(alloc, words)?;
        let made = made_path(alloc, self.leaf, bucket_len(device), &fills)?;
        page.bytes(&made.root);
        self.bytes = made.bytes;
        Ok(())
    }

    /// `hash bytes`: writes the bytes of the path.
    fn bytes(&self, page: &mut Page) -> Result<(), RowFault> {
        page.bytes(&self.bytes);
        Ok(())
    }

    /// `hash check LEN ROOT`: writes whether the path is accepted with this root digest when it is cut off, or filled
    /// up with zeros, at `LEN` bytes.
    fn check(
        &self,
        alloc: Global,
        device: &Device,
        words: &mut RowWords,
        page: &mut Page,
    ) -> Result<(), RowFault> {
        let len = words.size();
        let root = words.array(alloc);
        let mut bytes = self.bytes.as_slice().to_vec(alloc)?;
        bytes.resize(len, 0)?;
        show(checked(device, self.leaf, &root, &bytes)?, page);
        Ok(())
    }

    /// `hash flips ROOT`: writes the result of the check with the lowest bit of a byte flipped, byte by byte.
    fn flips(
        &self,
        alloc: Global,
        device: &Device,
        words: &mut RowWords,
        page: &mut Page,
    ) -> Result<(), RowFault> {
        let root = words.array(alloc);
        let mut groups = Groups::new(alloc);
        let mut bytes = self.bytes.as_slice().to_vec(alloc)?;
        let mut said = Page::new(alloc);
        for k in 0..bytes.len() {
            flip(&mut bytes, k);
            show(checked(device, self.leaf, &root, &bytes)?, &mut said);
            groups.add(k as u64, &said, page);
            said.clear();
            flip(&mut bytes, k);
        }
        groups.end(page);
        Ok(())
    }

    /// `hash sealed|left|right ROOT LEVEL`: writes this part of the record at a level.
    fn part(
        &self,
        alloc: Global,
        device: &Device,
        part: &str,
        words: &mut RowWords,
        page: &mut Page,
    ) -> Result<(), RowFault> {
        let root = words.array(alloc);
        let level = words.byte();
        let view = accepted(device, self.leaf, &root, &self.bytes)?;
        if level > device.depth(0) {
            return Err(RowFault::NoRow);
        }
        page.bytes(match part {
            "sealed" => view.sealed(level),
            "left" => view.left(level),
            "right" => view.right(level),
            _ => return Err(RowFault::NoRow),
        });
        Ok(())
    }

    /// `hash rebuild ROOT FILLS`: replaces the path by one with new sealed buckets, and writes its root digest.
    fn rebuild(
        &mut self,
        alloc: Global,
        device: &Device,
        words: &mut RowWords,
        page: &mut Page,
    ) -> Result<(), RowFault> {
        let root = words.array(alloc);
        let fills = lists::fills(alloc, words)?;
        let sealed = sealed(alloc, &fills, bucket_len(device))?;
        let root = self.take_buckets(alloc, device, &root, &sealed)?;
        page.bytes(&root);
        Ok(())
    }

    /// Puts new sealed buckets into the path, which has to be accepted with the root digest `root`. Returns the new
    /// root digest.
    fn take_buckets(
        &mut self,
        alloc: Global,
        device: &Device,
        root: &[u8; 32],
        sealed: &[Vec<u8>],
    ) -> Result<[u8; 32], RowFault> {
        if !are_buckets(device, sealed) {
            return Err(RowFault::NoRow);
        }
        let view = accepted(device, self.leaf, root, &self.bytes)?;
        let (bytes, root) = rebuild(alloc, &view, sealed)?;
        self.bytes = bytes;
        Ok(root)
    }

    /// Makes a call.
    pub fn answer(
        &mut self,
        alloc: Global,
        device: &Device,
        words: &mut RowWords,
        page: &mut Page,
    ) -> Result<(), RowFault> {
        match words.text() {
            "digest" => digest(alloc, words, page),
            "bytes" => self.bytes(page),
            "path" => self.path(alloc, device, words, page),
            "check" => self.check(alloc, device, words, page),
            "flips" => self.flips(alloc, device, words, page),
            "rebuild" => self.rebuild(alloc, device, words, page),
            part => self.part(alloc, device, part, words, page),
        }
    }
}
