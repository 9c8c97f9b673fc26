//! Rows of a run: commands, events and cores; and rows of formattings that send nothing.
//!
//! `device BLOCKS BLOCK_BYTES SLOTS TOP LIFETIME` begins with a new device. Every other row begins with the layer that
//! it calls.

mod commands;
mod cores;
mod formats;
mod runs;
mod said;

use crate::cores::Cores;
use oram_geometry::Device;
use rows::{Page, RowFault, RowWords, Table, run_table, shown_device_in};
use std::alloc::Global;
use std::process::ExitCode;

/// The calls of these rows.
#[derive(Drop)]
struct Calls {
    device: Option<Device>,
    cores: Cores,
}

impl Calls {
    /// `device SIZES`: writes how many trees the device has, or the number of the fault.
    fn begin(&mut self, words: &mut RowWords, page: &mut Page) -> Result<(), RowFault> {
        self.cores = Cores::new();
        self.device = shown_device_in(words, page);
        Ok(())
    }
}

impl Table for Calls {
    fn answer(
        &mut self,
        alloc: Global,
        call: &str,
        words: &mut RowWords,
        page: &mut Page,
    ) -> Result<(), RowFault> {
        if call == "device" {
            return self.begin(words, page);
        }
        match (&self.device, call) {
            (_, "run") => runs::answer(alloc, words, page),
            (Some(device), "format") => formats::answer(alloc, device, words, page),
            (Some(device), "core") => self.cores.answer(alloc, device, words, page),
            _ => Err(RowFault::NoRow),
        }
    }
}

fn main(rt: HostRuntime) -> ExitCode {
    let mut calls = Calls {
        device: None,
        cores: Cores::new(),
    };
    run_table(&rt, &mut calls)
}
