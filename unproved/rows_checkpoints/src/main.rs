//! Rows of the messages of checkpoints, of tags, and of summaries and their sealing.
//!
//! The first word of a row names its layer, the second one the call.

mod messages;
mod records;
mod seals;
mod summaries;
mod tags;

use rows::{Page, RowFault, RowWords, Table, run_table};
use std::alloc::Global;
use std::process::ExitCode;
use summaries::Summaries;

/// The calls of these rows, with the summary that they keep from row to row.
#[derive(Drop)]
struct Calls {
    summaries: Summaries,
}

impl Table for Calls {
    fn answer(
        &mut self,
        alloc: Global,
        call: &str,
        words: &mut RowWords,
        page: &mut Page,
    ) -> Result<(), RowFault> {
        let name = words.text();
        match call {
            "checkpoint" => messages::answer(alloc, name, words, page),
            "records" => records::answer(alloc, name, words, page),
            "tag" => tags::answer(alloc, name, words, page),
            "seal" => seals::answer(alloc, name, words, page),
            "summary" => self.summaries.answer(alloc, name, words, page),
            _ => Err(RowFault::NoRow),
        }
    }
}

fn main(rt: HostRuntime) -> ExitCode {
    let mut calls = Calls {
        summaries: Summaries::new(),
    };
    run_table(&rt, &mut calls)
}
