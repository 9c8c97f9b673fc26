//! Summaries. A summary is made by a row, gets its blocks by others, and is kept until the next one is made.

use oram_bucket::Block;
use oram_summary::{
    EncodeFault, SealerKind, Summary, SummaryFault, decode_summary, encode_summary, open_summary,
    seal_summary, sealed_len, text_len,
};
use rows::{Page, RowFault, RowWords, device_in};
use std::alloc::Global;

/// The summary that was made last.
#[derive(Drop)]
pub struct Summaries {
    made: Option<Summary>,
}

/// Reads a kind of sealer from words.
fn sealer_in(words: &mut RowWords) -> Result<SealerKind, RowFault> {
    match words.text() {
        "plain" => Ok(SealerKind::Plain),
        "chacha" => Ok(SealerKind::ChaCha20),
        _ => Err(RowFault::NoRow),
    }
}

/// `summary new DEVICE SEALER NEAR-LEVELS TIME NUMBER TICKET NONCE ROOT`: makes a summary without blocks, and writes how long its text is, and
/// how long it is sealed.
fn new_summary(alloc: Global, words: &mut RowWords, page: &mut Page) -> Result<Summary, RowFault> {
    let device = device_in(words)?;
    let sealer = sealer_in(words)?;
    page.number(text_len(&device));
    page.number(sealed_len(&device));
    Ok(Summary {
        sealer,
        device,
        near_levels: words.byte(),
        time: words.number(),
        number: words.number(),
        next_ticket: words.number(),
        next_nonce: words.number(),
        root: words.array(alloc),
        stash: Vec::new(alloc),
    })
}

/// `summary block ADDRESS LEAF CONTENT` and `summary blocks COUNT LEAF CONTENT`: adds a block to the summary's stash, or so many that have the
/// addresses from 0 on. Writes how many blocks the stash has then.
fn add_blocks(
    alloc: Global,
    summary: &mut Summary,
    are_many: bool,
    words: &mut RowWords,
    page: &mut Page,
) -> Result<(), RowFault> {
    let number = words.short();
    let (leaf, content) = (words.short(), words.bytes(alloc));
    let (first, end) = if are_many {
        (0, number)
    } else {
        (number, number.saturating_add(1))
    };
    for address in first..end {
        summary.stash.push(Block {
            address,
            leaf,
            content: content.as_slice().to_vec(alloc)?,
        })?;
    }
    page.number(summary.stash.len());
    Ok(())
}

/// Writes bytes, or why there are none.
fn show_made(page: &mut Page, made: Result<Vec<u8>, EncodeFault>) -> Result<(), RowFault> {
    match made {
        Ok(bytes) => page.bytes(&bytes),
        Err(EncodeFault::OutOfMemory) => return Err(RowFault::OutOfMemory),
        Err(fault) => page.show(&fault),
    }
    Ok(())
}

/// Writes all parts of a summary: the sealer, the sizes of the device, the other numbers, the root digest, and each block of the stash.
fn show_parts(page: &mut Page, summary: &Summary) {
    page.show(&summary.sealer);
    let device = &summary.device;
    page.number(device.blocks_in(0));
    page.number(device.block_bytes());
    page.number(device.slots());
    page.number(device.top());
    page.number(device.lifetime());
    page.number(device.leaf_load());
    page.number(summary.near_levels);
    page.number(summary.time);
    page.number(summary.number);
    page.number(summary.next_ticket);
    page.number(summary.next_nonce);
    page.bytes(&summary.root);
    for block in &summary.stash {
        page.part();
        page.number(block.address);
        page.number(block.leaf);
        page.bytes(&block.content);
    }
}

/// Writes a summary that was read, or why there is none.
fn show_read(page: &mut Page, read: Result<Summary, SummaryFault>) -> Result<(), RowFault> {
    match read {
        Ok(summary) => show_parts(page, &summary),
        Err(SummaryFault::OutOfMemory) => return Err(RowFault::OutOfMemory),
        Err(fault) => page.show(&fault),
    }
    Ok(())
}

impl Summaries {
    /// Has no summary yet.
    pub fn new() -> Summaries {
        Summaries { made: None }
    }

    /// Answers a row about the summary that was made last: `summary block` and `summary blocks` as above, `summary text` writes its text, and
    /// `summary seal KEY SALT` writes it sealed.
    fn answer_made(
        &mut self,
        alloc: Global,
        name: &str,
        words: &mut RowWords,
        page: &mut Page,
    ) -> Result<(), RowFault> {
        let Some(summary) = &mut self.made else {
            return Err(RowFault::NoRow);
        };
        match name {
            "block" => add_blocks(alloc, summary, false, words, page),
            "blocks" => add_blocks(alloc, summary, true, words, page),
            "text" => show_made(page, encode_summary(alloc, summary)),
            "seal" => {
                let (key, salt) = (words.array(alloc), words.array(alloc));
                show_made(page, seal_summary(alloc, &key, &salt, summary))
            }
            _ => Err(RowFault::NoRow),
        }
    }

    /// Answers a row about summaries. `summary read TEXT` reads a text and `summary open KEY SEALED` opens what was sealed; both write all parts of
    /// the summary, or why there is none.
    pub fn answer(
        &mut self,
        alloc: Global,
        name: &str,
        words: &mut RowWords,
        page: &mut Page,
    ) -> Result<(), RowFault> {
        match name {
            "new" => {
                self.made = Some(new_summary(alloc, words, page)?);
                Ok(())
            }
            "read" => {
                let text = words.bytes(alloc);
                show_read(page, decode_summary(alloc, &text))
            }
            "open" => {
                let key = words.array(alloc);
                let sealed = words.bytes(alloc);
                show_read(page, open_summary(alloc, &key, &sealed))
            }
            _ => self.answer_made(alloc, name, words, page),
        }
    }
}
