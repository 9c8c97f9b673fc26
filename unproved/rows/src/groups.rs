//! The answers of many calls: equal answers of calls in a row are written once.

use crate::page::Page;
use std::alloc::Global;

/// The last calls in a row that gave the same answer.
#[derive(Drop)]
pub struct Groups {
    first: u64,
    last: u64,
    said: Page,
}

impl Groups {
    pub fn new(alloc: Global) -> Groups {
        Groups {
            first: 0,
            last: 0,
            said: Page::new(alloc),
        }
    }

    /// Adds the answer of call `number`. If it differs from the answer before, the group before is
    /// written.
    pub fn add(&mut self, number: u64, said: &Page, page: &mut Page) {
        if !self.said.is_like(said) {
            self.end(page);
            self.first = number;
            self.said.page(said);
        }
        self.last = number;
    }

    /// Writes the group as `FIRST..LAST ANSWER`, if there is one.
    pub fn end(&mut self, page: &mut Page) {
        if self.said.is_empty() {
            return;
        }
        page.part();
        page.range(self.first, self.last);
        page.page(&self.said);
        self.said.clear();
    }
}
