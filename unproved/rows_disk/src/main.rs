//! Rows of the block device: the NBD protocol, a volume, and what a client keeps of a disk.
//!
//! The first word of a row names its layer, the second one the call.

mod arrivals;
mod batches;
mod connections;
mod endings;
mod far_end;
mod heads;
mod introductions;
mod keepers;
mod links;
mod slow_line;
mod stamped_links;
mod stamps;
mod stopping_disk;
mod volumes;
mod watches;

use connections::Connections;
use rows::{Page, RowFault, RowWords, Table, run_table};
use std::alloc::Global;
use std::process::ExitCode;
use volumes::Volumes;

/// The calls of these rows, with the values that each layer keeps from row to row.
#[derive(Drop)]
struct Calls {
    connections: Connections,
    volumes: Volumes,
}

impl Table for Calls {
    fn answer(
        &mut self,
        alloc: Global,
        call: &str,
        words: &mut RowWords,
        page: &mut Page,
    ) -> Result<(), RowFault> {
        let name = words.text();
        match call {
            "head" => heads::answer(alloc, name, words, page),
            "nbd" => self.connections.answer(alloc, name, words, page),
            "volume" => self.volumes.answer(alloc, name, words, page),
            "disk" => keepers::answer(alloc, name, words, page),
            "link" => links::answer(alloc, name, words, page),
            "introduce" => introductions::answer(alloc, name, words, page),
            "stamps" => stamps::answer(alloc, name, words, page),
            _ => Err(RowFault::NoRow),
        }
    }
}

fn main(rt: HostRuntime) -> ExitCode {
    let mut calls = Calls {
        connections: Connections::new(rt.alloc()),
        volumes: Volumes::new(),
    };
    run_table(&rt, &mut calls)
}
