//! Rows of sessions: links and tapes, devices that are formatted, served and resumed, and the service of a host.

mod answers;
mod ends;
mod far;
mod faults;
mod kept;
mod network;
mod sessions;
mod streams;
mod tapes;
mod ways;

use crate::kept::Kept;
use crate::network::CuttableNet;
use rows::{Page, RowFault, RowWords, Table, run_table};
use std::alloc::Global;
use std::net::Net;
use std::process::ExitCode;

impl<R: Net> Table for Kept<'_, R> {
    fn answer(
        &mut self,
        alloc: Global,
        call: &str,
        words: &mut RowWords,
        page: &mut Page,
    ) -> Result<(), RowFault> {
        match call {
            "names" => faults::names(words, page),
            "list_words" => tapes::list_words(alloc, words, page),
            "chacha_words" => tapes::chacha_words(alloc, words, page),
            "hosted" => answers::hosted(alloc, words, page),
            "stream" => streams::stream(alloc, words, page),
            "session" => sessions::session(alloc, self.net, words, page),
            "far_session" => far::far_session(alloc, words, page),
            _ => self.make(alloc, call, words, page),
        }
    }
}

/// Answers the rows of standard input, with links over a network.
fn answer_rows<R: Input + Print + AllocGlobal, N: Net>(rt: &R, net: &CuttableNet<N>) -> ExitCode {
    run_table(rt, &mut Kept::new(net))
}

/// Answers the rows over the network `net`, which it takes over.
fn run<R: Input + Print + AllocGlobal, N: Net + Drop>(rt: &R, net: CuttableNet<N>) -> ExitCode {
    answer_rows(rt, &net)
}

fn main(rt: HostRuntime) -> ExitCode {
    run(&rt, CuttableNet::new(&rt))
}
