//! The requests, as a client of NBD sends them, and as block commands.

use oram_bytes::Bytes;
use oram_core::Command;
use oram_nbd::Request;
use rand_chacha::ChaCha20Rng;
use rand_core::{Rng, SeedableRng};
use std::alloc::{AllocError, Global};

pub(crate) const REQUESTS: u32 = 500;

pub(crate) const BLOCKS: u32 = 4_096;

pub(crate) const BLOCK_BYTES: u32 = 4_096;

/// A read or a write of some block.
#[derive(Clone, Copy)]
pub(crate) struct Access {
    block: u32,
    writes: bool,
}

impl Access {
    /// Returns the block command.
    pub(crate) fn command(self, alloc: Global) -> Result<Command, AllocError> {
        if self.writes {
            let bytes = vec![in alloc; 7u8; BLOCK_BYTES as usize]?;
            Ok(Command::Write(self.block, Bytes::from_vec(bytes)))
        } else {
            Ok(Command::Read(self.block))
        }
    }

    /// Appends what a client sends for the access.
    fn say(self, alloc: Global, said: &mut Vec<u8>) -> Result<(), AllocError> {
        let request = Request {
            command: if self.writes {
                oram_nbd::Command::Write
            } else {
                oram_nbd::Command::Read
            },
            flags: 0,
            cookie: 0,
            offset: u64::from(self.block) * u64::from(BLOCK_BYTES),
            length: BLOCK_BYTES,
        };
        said.extend_from_slice(&request.encode(alloc)?)?;
        if self.writes {
            let bytes = vec![in alloc; 7u8; BLOCK_BYTES as usize]?;
            said.extend_from_slice(&bytes)?;
        }
        Ok(())
    }
}

/// Returns reads and writes of blocks drawn at random.
pub(crate) fn some_accesses(alloc: Global) -> Result<Vec<Access>, AllocError> {
    let mut random = ChaCha20Rng::from_seed([1; 32]);
    let mut accesses = Vec::new(alloc);
    for _ in 0..REQUESTS {
        accesses.push(Access {
            block: random.next_u32() % BLOCKS,
            writes: random.next_u32() % 2 == 0,
        })?;
    }
    Ok(accesses)
}

/// Returns what a client sends for these accesses.
pub(crate) fn said(alloc: Global, accesses: &[Access]) -> Result<Vec<u8>, AllocError> {
    let mut said = Vec::new(alloc);
    for access in accesses {
        access.say(alloc, &mut said)?;
    }
    Ok(said)
}
