//! Cores with one sealer or the other.

use crate::sealers::Sealing;
use oram_bucket::{ChaChaSeal, PlainSeal, Sealer};
use oram_core::{Core, Event, Parts, Reaction};
use oram_geometry::Device;
use oram_host::Server;
use oram_state::{StateFault, decode_state, encode_state};
use std::alloc::{AllocError, Global};

/// A core with its sealer.
#[derive(Drop)]
pub enum AnyCore {
    Plain(Core<PlainSeal>),
    ChaCha(Core<ChaChaSeal>),
}

/// Formats a device on a new server, and returns its core. Such a server refuses a record only if memory ran out.
fn formatted<S: Sealer>(
    alloc: Global,
    device: Device,
    sealer: S,
    server: &mut Server,
) -> Result<Core<S>, AllocError> {
    match Core::format(alloc, device, sealer, server) {
        Ok(core) => Ok(core),
        Err(_) => Err(AllocError),
    }
}

impl AnyCore {
    /// Formats a device on a new server, and returns its core.
    pub fn format(
        alloc: Global,
        device: Device,
        sealing: Sealing,
        server: &mut Server,
    ) -> Result<AnyCore, AllocError> {
        Ok(match sealing {
            Sealing::Plain(sealer) => AnyCore::Plain(formatted(alloc, device, sealer, server)?),
            Sealing::ChaCha(sealer) => AnyCore::ChaCha(formatted(alloc, device, sealer, server)?),
        })
    }

    /// Reads a core from a file.
    pub fn read(alloc: Global, sealing: Sealing, file: &[u8]) -> Result<AnyCore, StateFault> {
        Ok(match sealing {
            Sealing::Plain(sealer) => AnyCore::Plain(decode_state(alloc, sealer, file)?),
            Sealing::ChaCha(sealer) => AnyCore::ChaCha(decode_state(alloc, sealer, file)?),
        })
    }

    /// Makes one step.
    pub fn step(&mut self, alloc: Global, event: &Event) -> Result<Reaction, AllocError> {
        match self {
            AnyCore::Plain(core) => core.step(alloc, event),
            AnyCore::ChaCha(core) => core.step(alloc, event),
        }
    }

    /// Returns the file of the core.
    pub fn file(&self, alloc: Global) -> Result<Vec<u8>, AllocError> {
        match self {
            AnyCore::Plain(core) => encode_state(alloc, core),
            AnyCore::ChaCha(core) => encode_state(alloc, core),
        }
    }

    /// Returns what a client keeps of the core.
    pub fn parts(&self, alloc: Global) -> Result<Parts, AllocError> {
        match self {
            AnyCore::Plain(core) => core.parts(alloc),
            AnyCore::ChaCha(core) => core.parts(alloc),
        }
    }

    /// Returns how many bytes the sealer adds.
    pub fn overhead(&self) -> usize {
        match self {
            AnyCore::Plain(core) => core.overhead(),
            AnyCore::ChaCha(core) => core.overhead(),
        }
    }
}
