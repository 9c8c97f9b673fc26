//! Rows of rounds: whole lives of a device, and processes that carry out rounds of commands.

mod devices;
mod everywhere;
mod faults;
mod hosts;
mod keepers;
mod kept_files;
mod life_rows;
mod lives;
mod plain_arrays;
mod rounds;
mod storms;

use crate::hosts::HostPlace;
use crate::rounds::Rounds;
use rows::{Page, RowFault, RowWords, Table, run_table};
use std::alloc::Global;
use std::process::ExitCode;

impl Table for Rounds<'_> {
    fn answer(
        &mut self,
        alloc: Global,
        call: &str,
        words: &mut RowWords,
        page: &mut Page,
    ) -> Result<(), RowFault> {
        match call {
            "names" => faults::names(words, page),
            "lives" => life_rows::lives(alloc, words, page),
            "storm" => storms::run_storm(alloc, words, page),
            "ends_everywhere" => everywhere::ends_everywhere(alloc, words, page),
            _ => self.make(alloc, call, words, page),
        }
    }
}

fn main(rt: HostRuntime) -> ExitCode {
    let place = HostPlace::new();
    let mut rounds = Rounds::new(&place);
    run_table(&rt, &mut rounds)
}
