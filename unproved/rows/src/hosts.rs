//! Bucket servers in memory, and what they answer.

use crate::page::Page;
use crate::table::RowFault;
use crate::words::RowWords;
use oram_host::Server;
use oram_wire::{HostAnswer, Sink, SinkFault};
use std::alloc::Global;

/// The code by which a host refuses a message because it has no room. A host in memory does so only if memory ran out.
pub const NO_ROOM: u8 = 8;

impl From<SinkFault> for RowFault {
    fn from(fault: SinkFault) -> RowFault {
        match fault {
            SinkFault::OutOfMemory => RowFault::OutOfMemory,
            _ => RowFault::NoRow,
        }
    }
}

/// Returns whether this is the answer of a host that has no room.
pub fn lacks_room(answer: &[u8]) -> bool {
    answer == [0x81, NO_ROOM].as_slice()
}

/// Writes an answer of a host: `done`, `records BYTES` or `refused CODE`.
pub fn show_answer(answer: &HostAnswer, page: &mut Page) {
    match answer {
        HostAnswer::Done => page.word("done"),
        HostAnswer::Payload(bytes) => {
            page.word("records");
            page.bytes(bytes.as_slice());
        }
        HostAnswer::Refused(code) => {
            page.word("refused");
            page.number(*code);
        }
    }
}

/// Puts messages into a sink of any kind.
pub fn put_all<S: Sink>(sink: &mut S, messages: &[Vec<u8>]) -> Result<(), RowFault> {
    for message in messages {
        sink.put(message)?;
    }
    Ok(())
}

/// Makes the host that took these messages.
pub fn host_of(alloc: Global, messages: &[Vec<u8>]) -> Result<Server, RowFault> {
    let mut host = Server::new(alloc);
    put_all(&mut host, messages)?;
    Ok(host)
}

/// Returns a host's answer to a message. Fails if memory ran out.
pub fn host_answer(alloc: Global, host: &mut Server, body: &[u8]) -> Result<Vec<u8>, RowFault> {
    let answer = host.answer(alloc, body)?;
    if lacks_room(&answer) {
        return Err(RowFault::OutOfMemory);
    }
    Ok(answer)
}

/// Flips a bit of the byte that the words `TREE NODE PLACE` name in a record. Returns whether there is such a byte.
pub fn flip_in(host: &mut Server, words: &mut RowWords) -> bool {
    let (tree, node) = (words.number(), words.number());
    host.flip(tree, node, words.number())
}

/// Swaps the two records that the words `TREE NODE TREE NODE` name. Returns whether there are two that can be swapped.
pub fn swap_in(host: &mut Server, words: &mut RowWords) -> bool {
    let (tree_a, node_a) = (words.number(), words.number());
    host.swap(tree_a, node_a, words.number(), words.number())
}
