//! Rows of a link whose client keeps the records of the top levels of tree 0 itself.

mod devices;
mod empties;
mod hosts;
mod links;

use crate::hosts::HostPlace;
use crate::links::Links;
use rows::{Page, RowFault, RowWords, Table, run_table};
use std::alloc::Global;
use std::process::ExitCode;

impl Table for Links<'_> {
    fn answer(
        &mut self,
        alloc: Global,
        call: &str,
        words: &mut RowWords,
        page: &mut Page,
    ) -> Result<(), RowFault> {
        self.make(alloc, call, words, page)
    }
}

fn main(rt: HostRuntime) -> ExitCode {
    let place = HostPlace::new();
    let mut links = Links::new(&place);
    run_table(&rt, &mut links)
}
