//! Rows of the trees: hashed paths, stashes, trees and tapes.
//!
//! `device BLOCKS BLOCK_BYTES SLOTS TOP LIFETIME` begins with a new device. Every other row begins with the layer that
//! it calls.

mod hashes;
mod leaves;
mod lists;
mod paths;
mod stashes;
mod traces;
mod trees;

use crate::hashes::Hashes;
use crate::stashes::Stashes;
use crate::trees::Trees;
use oram_geometry::Device;
use rows::{Page, RowFault, RowWords, Table, run_table, shown_device_in};
use std::alloc::Global;
use std::process::ExitCode;

/// A device, and the values that the layers keep for it from row to row.
#[derive(Drop)]
struct Layers {
    device: Device,
    hashes: Hashes,
    stashes: Stashes,
    trees: Trees,
}

impl Layers {
    fn new(alloc: Global, device: Device) -> Layers {
        Layers {
            device,
            hashes: Hashes::new(alloc),
            stashes: Stashes::new(alloc),
            trees: Trees::new(alloc),
        }
    }

    /// Makes a call of the layer `layer`.
    fn answer(
        &mut self,
        alloc: Global,
        layer: &str,
        words: &mut RowWords,
        page: &mut Page,
    ) -> Result<(), RowFault> {
        let device = &self.device;
        match layer {
            "hash" => self.hashes.answer(alloc, device, words, page),
            "stash" => self.stashes.answer(alloc, device, words, page),
            "tree" => self.trees.answer(alloc, device, words, page),
            "trace" => traces::answer(alloc, device, words, page),
            _ => Err(RowFault::NoRow),
        }
    }
}

/// The calls of these rows. The layers are in a box, so that a function that replaces them has only one value to drop, and is
/// proved faster.
#[derive(Drop)]
struct Calls {
    layers: Option<Box<Layers>>,
}

impl Calls {
    /// `device SIZES`: writes how many trees the device has, or the number of the fault.
    fn begin(
        &mut self,
        alloc: Global,
        words: &mut RowWords,
        page: &mut Page,
    ) -> Result<(), RowFault> {
        self.layers = match shown_device_in(words, page) {
            Some(device) => Some(Box::new(alloc, Layers::new(alloc, device))?),
            None => None,
        };
        Ok(())
    }
}

impl Table for Calls {
    fn answer(
        &mut self,
        alloc: Global,
        call: &str,
        words: &mut RowWords,
        page: &mut Page,
    ) -> Result<(), RowFault> {
        if call == "device" {
            return self.begin(alloc, words, page);
        }
        match &mut self.layers {
            Some(layers) => layers.answer(alloc, call, words, page),
            None => Err(RowFault::NoRow),
        }
    }
}

fn main(rt: HostRuntime) -> ExitCode {
    run_table(&rt, &mut Calls { layers: None })
}
