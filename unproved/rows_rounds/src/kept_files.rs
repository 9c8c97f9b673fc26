//! Rows of texts of a process, whole ones and others.

use oram_bucket::{ChaChaSeal, PlainSeal};
use oram_core::Core;
use oram_rounds::{KeptCore, KeptCoreFault, LinkRecords, RecordChanges, decode_kept, encode_kept};
use oram_state::{StateFault, decode_fields, encode_around_table};
use rows::{Page, RowFault, joined};
use std::alloc::Global;

/// How many texts were read, and what became of them.
#[derive(Clone, Copy, Drop)]
struct Tally {
    torn: u64,
    core: u64,
    taken: u64,
}

impl Tally {
    const EMPTY: Tally = Tally {
        torn: 0,
        core: 0,
        taken: 0,
    };

    /// Reads a text, and counts what came of it.
    fn count(&mut self, alloc: Global, file: &[u8]) -> Result<(), RowFault> {
        match decode_kept(alloc, PlainSeal, file, &[]) {
            Ok(_) => self.taken = self.taken.saturating_add(1),
            Err(KeptCoreFault::Torn) => self.torn = self.torn.saturating_add(1),
            Err(KeptCoreFault::Core(_)) => self.core = self.core.saturating_add(1),
            Err(KeptCoreFault::OutOfMemory) => return Err(RowFault::OutOfMemory),
        }
        Ok(())
    }

    /// Writes how many texts were refused since no STOREs and note are at their front, how many because of the core, and how many were
    /// read.
    fn tell(self, page: &mut Page) {
        page.word("torn");
        page.number(self.torn);
        page.word("core");
        page.number(self.core);
        page.word("taken");
        page.number(self.taken);
    }
}

/// The text of a process, and its check.
#[derive(Drop)]
pub(crate) struct WholeText {
    pub(crate) bytes: Vec<u8>,
    pub(crate) check: u64,
}

/// Returns the text of these STOREs, this note and this core, up to these records.
pub(crate) fn text_before(
    alloc: Global,
    stores: &[Vec<u8>],
    note: &[u8],
    records: &[u8],
    core: &Core<PlainSeal>,
) -> Result<WholeText, RowFault> {
    let text = encode_kept(alloc, stores, note, records, core)?;
    let records = LinkRecords {
        bytes: records,
        changes: RecordChanges::Any,
    };
    let parts = text.with_table(core.table(), core.changes(), records);
    Ok(WholeText {
        bytes: joined(alloc, parts.before, parts.table, parts.after)?,
        check: text.check,
    })
}

/// Returns the text of these STOREs, this note and this core, of a link without records.
pub(crate) fn text_of(
    alloc: Global,
    stores: &[Vec<u8>],
    note: &[u8],
    core: &Core<PlainSeal>,
) -> Result<WholeText, RowFault> {
    text_before(alloc, stores, note, &[], core)
}

/// Returns the fields of a core.
pub(crate) fn fields_of(alloc: Global, core: &Core<PlainSeal>) -> Result<Vec<u8>, RowFault> {
    let around = encode_around_table(alloc, core)?;
    Ok(joined(alloc, &around.before, core.table(), &around.after)?)
}

/// Reads a text with these records behind it, and writes how many STOREs it has, its note, its check, and whether that is the one that its
/// writer gave.
pub(crate) fn tell_read_file(
    alloc: Global,
    text: &WholeText,
    records: &[u8],
    page: &mut Page,
) -> Result<(), RowFault> {
    let KeptCore {
        stores,
        note,
        check,
        ..
    } = match decode_kept(alloc, PlainSeal, &text.bytes, records) {
        Ok(kept) => kept,
        Err(KeptCoreFault::OutOfMemory) => return Err(RowFault::OutOfMemory),
        Err(_) => return Err(RowFault::NoRow),
    };
    page.word("stores");
    page.number(stores.len());
    page.word("note");
    page.bytes(&note);
    page.word("check");
    page.bytes(&check.to_be_bytes());
    page.flag(check == text.check);
    Ok(())
}

/// Reads a text that has records behind it as one with these.
pub(crate) fn tell_other_records(
    alloc: Global,
    text: &WholeText,
    records: &[u8],
    page: &mut Page,
) -> Result<(), RowFault> {
    match decode_kept(alloc, PlainSeal, &text.bytes, records) {
        Ok(_) => page.word("taken"),
        Err(KeptCoreFault::OutOfMemory) => return Err(RowFault::OutOfMemory),
        Err(fault) => page.fault(fault),
    }
    Ok(())
}

/// Reads the text cut short at each length.
pub(crate) fn tell_cut_files(alloc: Global, file: &[u8], page: &mut Page) -> Result<(), RowFault> {
    let mut tally = Tally::EMPTY;
    for len in 0..file.len() {
        tally.count(alloc, &file[..len])?;
    }
    tally.tell(page);
    Ok(())
}

/// Reads the fields of the core cut short at each length.
pub(crate) fn tell_cut_fields(
    alloc: Global,
    fields: &[u8],
    page: &mut Page,
) -> Result<(), RowFault> {
    let mut tally = Tally::EMPTY;
    for len in 0..fields.len() {
        match decode_fields(alloc, PlainSeal, &fields[..len]) {
            Ok(_) => tally.taken = tally.taken.saturating_add(1),
            Err(StateFault::OutOfMemory) => return Err(RowFault::OutOfMemory),
            Err(_) => tally.core = tally.core.saturating_add(1),
        }
    }
    tally.tell(page);
    Ok(())
}

/// Reads the text with another sealer than the one that it was written with.
pub(crate) fn tell_other_sealer(
    alloc: Global,
    file: &[u8],
    page: &mut Page,
) -> Result<(), RowFault> {
    match decode_kept(alloc, ChaChaSeal { key: [0; 32] }, file, &[]) {
        Ok(_) => page.word("taken"),
        Err(KeptCoreFault::OutOfMemory) => return Err(RowFault::OutOfMemory),
        Err(fault) => page.fault(fault),
    }
    Ok(())
}
