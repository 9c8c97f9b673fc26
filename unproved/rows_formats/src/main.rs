//! Rows of sizes, buckets, sealed bytes, messages, streams of frames, bucket hosts, their images, and state files.
//!
//! The first word of a row names its layer, the second one the call.

mod buckets;
mod cores;
mod devices;
mod fault_text;
mod files;
mod images;
mod levels;
mod lists;
mod messages;
mod sealers;
mod servers;
mod sessions;
mod states;
mod streams;

use buckets::Buckets;
use devices::Devices;
use files::Files;
use rows::{Page, RowFault, RowWords, Table, run_table};
use servers::Servers;
use states::States;
use std::alloc::Global;
use std::process::ExitCode;
use streams::Streams;

/// The calls of these rows, with the values that each layer keeps from row to row.
#[derive(Drop)]
struct Calls {
    devices: Devices,
    buckets: Buckets,
    streams: Streams,
    servers: Servers,
    states: States,
    files: Files,
}

impl Table for Calls {
    fn answer(
        &mut self,
        alloc: Global,
        call: &str,
        words: &mut RowWords,
        page: &mut Page,
    ) -> Result<(), RowFault> {
        let name = words.text();
        match call {
            "device" => self.devices.answer(name, words, page),
            "list" => lists::answer(alloc, name, words, page),
            "bucket" => self.buckets.answer(alloc, name, words, page),
            "seal" => sealers::answer(alloc, name, words, page),
            "host" => messages::answer(alloc, name, words, page),
            "levels" => levels::answer(alloc, name, words, page),
            "session" => sessions::answer(alloc, name, words, page),
            "frame" => self.streams.answer(alloc, name, words, page),
            "server" => self.servers.answer(alloc, name, words, page),
            "image" => images::answer(alloc, &mut self.servers, name, words, page),
            "core" => self.states.answer(alloc, name, words, page),
            "file" => self.files.answer(alloc, name, words, page),
            _ => Err(RowFault::NoRow),
        }
    }
}

fn main(rt: HostRuntime) -> ExitCode {
    let mut calls = Calls {
        devices: Devices::new(),
        buckets: Buckets::new(),
        streams: Streams::new(),
        servers: Servers::new(),
        states: States::new(rt.alloc()),
        files: Files::new(rt.alloc()),
    };
    run_table(&rt, &mut calls)
}
