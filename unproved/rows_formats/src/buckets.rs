//! The bytes of buckets.

use crate::fault_text::show_fault;
use crate::sealers::{Sealing, sealing_in};
use oram_bucket::{
    Block, BucketFault, OpenFault, Sealer, decode_bucket, encode_bucket, open_bucket, seal_bucket,
};
use oram_geometry::Device;
use rows::{Page, RowFault, RowWords, device_in};
use std::alloc::Global;

/// The device of the next rows, in whose first tree the buckets are.
#[derive(Drop)]
pub struct Buckets {
    device: Option<Device>,
}

fn write_block(page: &mut Page, block: &Block) {
    page.number(block.address);
    page.number(block.leaf);
    page.bytes(&block.content);
}

/// Writes the address, the leaf and the data of each block, or `empty` if there are none.
fn write_blocks(page: &mut Page, blocks: &[Block]) {
    if blocks.is_empty() {
        page.word("empty");
    }
    for block in blocks {
        write_block(page, block);
    }
}

/// `bucket decode BYTES`: writes the blocks that the bytes encode, or the first fault. `bucket again BYTES`: writes the bucket
/// that encodes these blocks.
fn decode(
    alloc: Global,
    device: &Device,
    name: &str,
    words: &mut RowWords,
    page: &mut Page,
) -> Result<(), RowFault> {
    let bytes = words.bytes(alloc);
    match decode_bucket(alloc, device, 0, &bytes) {
        Ok(blocks) => {
            if name == "again" {
                page.bytes(&encode_bucket(alloc, device, 0, &blocks)?);
            } else {
                write_blocks(page, &blocks);
            }
        }
        Err(BucketFault::OutOfMemory) => return Err(RowFault::OutOfMemory),
        Err(fault) => show_fault(page, fault.number(), &fault),
    }
    Ok(())
}

fn write_sealed<S: Sealer>(
    alloc: Global,
    sealer: &S,
    device: &Device,
    nonce: u64,
    bytes: &[u8],
    page: &mut Page,
) -> Result<(), RowFault> {
    match decode_bucket(alloc, device, 0, bytes) {
        Ok(blocks) => {
            let sealed = seal_bucket(alloc, sealer, device, 0, nonce, &blocks)?;
            page.bytes(&sealed);
        }
        Err(BucketFault::OutOfMemory) => return Err(RowFault::OutOfMemory),
        Err(_) => return Err(RowFault::NoRow),
    }
    Ok(())
}

/// `bucket seal SEALER NONCE BYTES`: decodes the bytes and writes the sealed bucket.
fn seal(
    alloc: Global,
    device: &Device,
    words: &mut RowWords,
    page: &mut Page,
) -> Result<(), RowFault> {
    let sealing = sealing_in(alloc, words)?;
    let nonce = words.number();
    let bytes = words.bytes(alloc);
    match &sealing {
        Sealing::Plain(sealer) => write_sealed(alloc, sealer, device, nonce, &bytes, page),
        Sealing::ChaCha(sealer) => write_sealed(alloc, sealer, device, nonce, &bytes, page),
    }
}

fn write_opened<S: Sealer>(
    alloc: Global,
    sealer: &S,
    device: &Device,
    sealed: &[u8],
    page: &mut Page,
) -> Result<(), RowFault> {
    match open_bucket(alloc, sealer, device, 0, sealed) {
        Ok(blocks) => write_blocks(page, &blocks),
        Err(OpenFault::OutOfMemory) => return Err(RowFault::OutOfMemory),
        Err(fault) => page.show(&fault),
    }
    Ok(())
}

/// `bucket open SEALER BYTES`: writes the blocks of a sealed bucket.
fn open(
    alloc: Global,
    device: &Device,
    words: &mut RowWords,
    page: &mut Page,
) -> Result<(), RowFault> {
    let sealing = sealing_in(alloc, words)?;
    let sealed = words.bytes(alloc);
    match &sealing {
        Sealing::Plain(sealer) => write_opened(alloc, sealer, device, &sealed, page),
        Sealing::ChaCha(sealer) => write_opened(alloc, sealer, device, &sealed, page),
    }
}

/// `bucket copy ADDRESS LEAF BYTES`: writes the copy of a block.
fn copy(alloc: Global, words: &mut RowWords, page: &mut Page) -> Result<(), RowFault> {
    let block = Block {
        address: words.short(),
        leaf: words.short(),
        content: words.bytes(alloc),
    };
    let copied = block.copy(alloc)?;
    write_block(page, &copied);
    Ok(())
}

impl Buckets {
    pub fn new() -> Buckets {
        Buckets { device: None }
    }

    /// Answers a row about buckets. `bucket device SIZES` sets the device, and writes whether there
    /// is one.
    pub fn answer(
        &mut self,
        alloc: Global,
        name: &str,
        words: &mut RowWords,
        page: &mut Page,
    ) -> Result<(), RowFault> {
        if name == "device" {
            self.device = device_in(words).ok();
            page.flag(self.device.is_some());
            return Ok(());
        }
        let Some(device) = &self.device else {
            return Err(RowFault::NoRow);
        };
        match name {
            "decode" | "again" => decode(alloc, device, name, words, page),
            "seal" => seal(alloc, device, words, page),
            "open" => open(alloc, device, words, page),
            "copy" => copy(alloc, words, page),
            "want" => {
                show_fault(
                    page,
                    BucketFault::OutOfMemory.number(),
                    &BucketFault::OutOfMemory,
                );
                Ok(())
            }
            _ => Err(RowFault::NoRow),
        }
    }
}
