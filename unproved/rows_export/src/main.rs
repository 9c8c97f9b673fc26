//! Rows of readings: a device in memory is written, and then all its records are read, from a host that may change some of them.

mod hosts;
mod images;
mod readings;

use rows::{Page, RowFault, RowWords, Table, run_table};
use std::alloc::Global;
use std::process::ExitCode;

/// The calls of these rows.
#[derive(Drop)]
struct Calls;

impl Table for Calls {
    fn answer(
        &mut self,
        alloc: Global,
        call: &str,
        words: &mut RowWords,
        page: &mut Page,
    ) -> Result<(), RowFault> {
        match call {
            "check" => readings::check(alloc, words, page),
            "export" => readings::export(alloc, words, page),
            "asked" => readings::asked(alloc, words, page),
            _ => Err(RowFault::NoRow),
        }
    }
}

fn main(rt: HostRuntime) -> ExitCode {
    run_table(&rt, &mut Calls)
}
