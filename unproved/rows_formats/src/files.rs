//! State files that are read, written again, and changed.

use crate::cores::AnyCore;
use crate::fault_text::show_fault;
use crate::sealers::{Sealing, sealing_in};
use oram_state::StateFault;
use rows::{Page, RowFault, RowWords};
use sha2::{Digest, Sha256};
use std::alloc::Global;

/// The file that the next rows change, and the sealer of its core.
#[derive(Drop)]
pub struct Files {
    file: Vec<u8>,
    sealing: Sealing,
}

/// The length of the digest at the end in bytes.
const DIGEST_LEN: usize = 32;

/// Reads the core of a file, or returns why there is none.
pub fn core_in(
    alloc: Global,
    sealing: Sealing,
    file: &[u8],
) -> Result<Result<AnyCore, StateFault>, RowFault> {
    match AnyCore::read(alloc, sealing, file) {
        Err(StateFault::OutOfMemory) => Err(RowFault::OutOfMemory),
        read => Ok(read),
    }
}

/// Returns what is wrong with a file.
fn fault_of(alloc: Global, sealing: Sealing, file: &[u8]) -> Result<Option<StateFault>, RowFault> {
    Ok(core_in(alloc, sealing, file)?.err())
}

/// Writes what is wrong with a file.
pub fn write_fault(page: &mut Page, fault: Option<StateFault>) {
    match fault {
        Some(fault) => show_fault(page, fault.number(), &fault),
        None => page.word("good"),
    }
}

/// Flips the lowest bit of a byte.
fn flip(file: &mut [u8], place: usize) -> Result<(), RowFault> {
    let Some(byte) = file.get_mut(place) else {
        return Err(RowFault::NoRow);
    };
    *byte ^= 1;
    Ok(())
}

/// Writes the file of a core.
fn write_file(alloc: Global, core: &AnyCore, page: &mut Page) -> Result<(), RowFault> {
    page.bytes(&core.file(alloc)?);
    Ok(())
}

/// `file again SEALER FILE`: reads the core of a file, and writes the core's file.
fn again(alloc: Global, words: &mut RowWords, page: &mut Page) -> Result<(), RowFault> {
    let sealing = sealing_in(alloc, words)?;
    let file = words.bytes(alloc);
    match core_in(alloc, sealing, &file)? {
        Ok(core) => write_file(alloc, &core, page),
        Err(fault) => {
            write_fault(page, Some(fault));
            Ok(())
        }
    }
}

impl Files {
    pub fn new(alloc: Global) -> Files {
        Files {
            file: Vec::new(alloc),
            sealing: Sealing::Plain(oram_bucket::PlainSeal),
        }
    }

    /// `file kept SEALER FILE`: sets the file that the next rows change. Writes what is wrong with it.
    fn keep(
        &mut self,
        alloc: Global,
        words: &mut RowWords,
        page: &mut Page,
    ) -> Result<(), RowFault> {
        self.sealing = sealing_in(alloc, words)?;
        self.file = words.bytes(alloc);
        write_fault(page, fault_of(alloc, self.sealing, &self.file)?);
        Ok(())
    }

    /// Returns what is wrong with the file if the lowest bit of the byte at `place` is flipped, or, for `cuts`, with the file's
    /// first `place` bytes.
    fn fault_at(
        &mut self,
        alloc: Global,
        name: &str,
        place: usize,
    ) -> Result<Option<StateFault>, RowFault> {
        if name == "cuts" {
            let Some(cut) = self.file.get(..place) else {
                return Err(RowFault::NoRow);
            };
            return fault_of(alloc, self.sealing, cut);
        }
        flip(&mut self.file, place)?;
        let fault = fault_of(alloc, self.sealing, &self.file)?;
        flip(&mut self.file, place)?;
        Ok(fault)
    }

    /// `file flips FROM TO`: flips the lowest bit of one byte at a time. `file cuts FROM TO`: takes only the file's first
    /// bytes. Writes what is wrong with the file then, or `not alike` if that isn't the same for each byte, or each number of
    /// bytes, from `FROM` up to but not including `TO`.
    fn alike(
        &mut self,
        alloc: Global,
        name: &str,
        words: &mut RowWords,
        page: &mut Page,
    ) -> Result<(), RowFault> {
        let from = words.size();
        let first = self.fault_at(alloc, name, from)?;
        for place in from..words.size() {
            if self.fault_at(alloc, name, place)? != first {
                page.word("not alike");
                return Ok(());
            }
        }
        write_fault(page, first);
        Ok(())
    }

    /// `file flip PLACE`: flips the lowest bit of a byte for the next rows too. Writes what is wrong with the file
    /// then.
    fn flip(
        &mut self,
        alloc: Global,
        words: &mut RowWords,
        page: &mut Page,
    ) -> Result<(), RowFault> {
        flip(&mut self.file, words.size())?;
        write_fault(page, fault_of(alloc, self.sealing, &self.file)?);
        Ok(())
    }

    /// Returns the file with another byte at a place, and with the right digest.
    fn edited(&self, alloc: Global, place: usize, byte: u8) -> Result<Vec<u8>, RowFault> {
        let mut file = self.file.as_slice().to_vec(alloc)?;
        file.truncate(file.len().saturating_sub(DIGEST_LEN));
        let Some(old) = file.get_mut(place) else {
            return Err(RowFault::NoRow);
        };
        *old = byte;
        let digest = Sha256::digest(file.as_slice());
        file.extend_from_slice(&digest)?;
        Ok(file)
    }

    /// `file edit PLACE BYTE`: writes what is wrong with the file if it has this byte there and the right digest.
    fn edit(&self, alloc: Global, words: &mut RowWords, page: &mut Page) -> Result<(), RowFault> {
        let place = words.size();
        let byte = words.byte();
        let file = self.edited(alloc, place, byte)?;
        write_fault(page, fault_of(alloc, self.sealing, &file)?);
        Ok(())
    }

    /// Answers a row about files.
    pub fn answer(
        &mut self,
        alloc: Global,
        name: &str,
        words: &mut RowWords,
        page: &mut Page,
    ) -> Result<(), RowFault> {
        match name {
            "again" => again(alloc, words, page),
            "kept" => self.keep(alloc, words, page),
            "flips" | "cuts" => self.alike(alloc, name, words, page),
            "flip" => self.flip(alloc, words, page),
            "edit" => self.edit(alloc, words, page),
            "want" => {
                let want = StateFault::OutOfMemory;
                show_fault(page, want.number(), &want);
                Ok(())
            }
            _ => Err(RowFault::NoRow),
        }
    }
}
