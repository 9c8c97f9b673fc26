//! What a host does other than answer.

use super::machine::Machine;
use oram_bucket::Sealer;
use oram_bytes::Bytes;
use oram_semantics::Event;
use rows::{Page, RowFault, RowWords, flip_in, swap_in};
use std::alloc::Global;

impl<S: Sealer + Copy> Machine<S> {
    /// `core keep`: keeps the host's answer to the outstanding message, and writes how many bytes it has.
    fn keep(&mut self, alloc: Global, page: &mut Page) -> Result<(), RowFault> {
        self.kept = self.answer_of_host(alloc)?;
        page.number(self.kept.len());
        page.word("bytes");
        Ok(())
    }

    /// `core kept`: lets the host answer with what was kept.
    fn kept(&mut self, alloc: Global, page: &mut Page) -> Result<(), RowFault> {
        let bytes = Bytes::copy(alloc, &self.kept)?;
        self.tell(alloc, Event::Answer(bytes), page)
    }

    /// `core same`: writes whether the host would now give the answer that was kept.
    fn same(&mut self, alloc: Global, page: &mut Page) -> Result<(), RowFault> {
        let bytes = self.answer_of_host(alloc)?;
        page.flag(bytes.as_slice() == self.kept.as_slice());
        Ok(())
    }

    /// `core snapshot`: keeps a copy of the host.
    fn snapshot(&mut self, alloc: Global) -> Result<bool, RowFault> {
        self.snapshot = Some(self.host.copy(alloc)?);
        Ok(true)
    }

    /// `core restore`: replaces the host by its kept copy.
    fn restore(&mut self, alloc: Global) -> Result<bool, RowFault> {
        let Some(kept) = &self.snapshot else {
            return Ok(false);
        };
        self.host = kept.copy(alloc)?;
        Ok(true)
    }

    /// Makes a call. A call that changes the host writes whether that could be done: `core tamper TREE NODE OFFSET` flips the
    /// lowest bit of a byte of a record, and `core swap TREE NODE TREE NODE` swaps two records.
    pub fn meddle(
        &mut self,
        alloc: Global,
        call: &str,
        words: &mut RowWords,
        page: &mut Page,
    ) -> Result<(), RowFault> {
        let done = match call {
            "keep" => return self.keep(alloc, page),
            "kept" => return self.kept(alloc, page),
            "same" => return self.same(alloc, page),
            "snapshot" => self.snapshot(alloc)?,
            "restore" => self.restore(alloc)?,
            "tamper" => flip_in(&mut self.host, words),
            "swap" => swap_in(&mut self.host, words),
            _ => return Err(RowFault::NoRow),
        };
        page.word(if done { "done" } else { "no" });
        Ok(())
    }
}
