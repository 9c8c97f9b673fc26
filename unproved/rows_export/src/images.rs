//! An image in memory.

use oram_export::{BlockSink, ReadingWatch, SinkStop};
use std::alloc::Global;

/// A block's byte for each block that was put, and how often it was put. It takes this many blocks.
#[derive(Drop)]
pub(crate) struct MemoryImage {
    pub(crate) blocks: Vec<Option<u8>>,
    pub(crate) puts: u64,
    pub(crate) room: u64,
}

impl MemoryImage {
    pub(crate) fn new(alloc: Global, blocks: usize, room: u64) -> Option<MemoryImage> {
        let mut none = Vec::new(alloc);
        for _ in 0..blocks {
            none.push(None).ok()?;
        }
        Some(MemoryImage {
            blocks: none,
            puts: 0,
            room,
        })
    }
}

impl BlockSink for MemoryImage {
    ghost use Rattle.std.specs.Prelude.{⊤};

    ghost takes = { λ old write new. ⊤ };

    fn put(&mut self, address: u32, data: &[u8]) -> Result<(), SinkStop> {
        if self.puts == self.room {
            return Err(SinkStop);
        }
        self.puts += 1;
        self.blocks[address as usize] = Some(data[0]);
        Ok(())
    }
}

/// Counts the nodes that were read.
#[derive(Drop)]
pub(crate) struct Counter {
    pub(crate) nodes: u64,
}

impl ReadingWatch for Counter {
    fn read(&mut self, nodes: u64) {
        self.nodes += nodes;
    }
}
