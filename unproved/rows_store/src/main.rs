//! Rows of the bucket file: its layout, its redo log, and the server that keeps its records in it.
//!
//! The first word of a row names its layer, the second one the call.

mod answers;
mod batches;
mod files;
mod fronts;
mod headers;
mod layouts;
mod lent;
mod lives;
mod redos;
mod stores;

use lives::Lives;
use redos::Redos;
use rows::{Page, RowFault, RowWords, Table, run_table};
use std::alloc::Global;
use std::process::ExitCode;
use stores::Stores;

/// The calls of these rows, with the values that each layer keeps from row to row.
#[derive(Drop)]
struct Calls {
    redos: Redos,
    stores: Stores,
    lives: Lives,
}

impl Table for Calls {
    fn answer(
        &mut self,
        alloc: Global,
        call: &str,
        words: &mut RowWords,
        page: &mut Page,
    ) -> Result<(), RowFault> {
        let name = words.text();
        match call {
            "front" => fronts::answer(alloc, name, words, page),
            "layout" => layouts::answer(name, words, page),
            "header" => headers::answer(alloc, name, words, page),
            "redo" => self.redos.answer(alloc, name, words, page),
            "store" => self.stores.answer(alloc, name, words, page),
            "life" => self.lives.answer(alloc, name, words, page),
            _ => Err(RowFault::NoRow),
        }
    }
}

fn main(rt: HostRuntime) -> ExitCode {
    let mut calls = Calls {
        redos: Redos::new(),
        stores: Stores::new(),
        lives: Lives::new(),
    };
    run_table(&rt, &mut calls)
}
