//! An array in memory: what a device has to be to the commands of a round.

use oram_bytes::Bytes;
use oram_core::{Command, Reply, ReplyBody};
use rows::RowFault;
use std::alloc::{AllocError, Global};

/// How many bytes a block has.
const BLOCK_BYTES: usize = 16;

/// Returns `count` commands of all kinds for the blocks of a device. Two of three are for the block of the command before them.
pub(crate) fn many_commands(
    alloc: Global,
    blocks: u32,
    count: u32,
) -> Result<Vec<Command>, AllocError> {
    let mut commands = Vec::new(alloc);
    for i in 0..count {
        commands.push(command_of(alloc, blocks, i)?)?;
    }
    Ok(commands)
}

/// Returns the address of the block that command `i` is for.
fn address_of(blocks: u32, i: u32) -> u32 {
    (i / 3).wrapping_mul(7).checked_rem(blocks).unwrap_or(0)
}

/// Returns command `i` of these: a write, and then a read, and so on, but each fifth is a discard.
fn command_of(alloc: Global, blocks: u32, i: u32) -> Result<Command, AllocError> {
    let address = address_of(blocks, i);
    if i % 5 == 4 {
        return Ok(Command::Discard(address));
    }
    if i % 2 == 1 {
        return Ok(Command::Read(address));
    }
    Ok(Command::Write(address, Bytes::copy(alloc, &[byte_of(i); BLOCK_BYTES])?))
}

/// Returns the byte that command `i` writes.
fn byte_of(i: u32) -> u8 {
    (i % 250 + 1) as u8
}

/// The array: each block is filled with one byte.
#[derive(Drop)]
pub(crate) struct PlainArray {
    bytes: Vec<u8>,
}

impl PlainArray {
    /// Makes an array of zeros.
    pub(crate) fn new(alloc: Global, blocks: u32) -> Result<PlainArray, AllocError> {
        let mut bytes = Vec::new(alloc);
        for _ in 0..blocks {
            bytes.push(0)?;
        }
        Ok(PlainArray { bytes })
    }

    /// Returns whether this is the reply to a command.
    fn is_reply(&self, command: &Command, reply: &Reply) -> bool {
        let Some(block) = self.bytes.get(command.address() as usize) else {
            return false;
        };
        match (command, &reply.body) {
            (Command::Read(_), ReplyBody::Data(bytes)) => {
                let bytes = bytes.as_slice();
                bytes.len() == BLOCK_BYTES && bytes.iter().all(|byte| byte == block)
            }
            (Command::Write(..) | Command::Discard(_), ReplyBody::Done) => true,
            _ => false,
        }
    }

    /// Changes the array as a command does.
    fn change(&mut self, command: &Command) {
        let Some(block) = self.bytes.get_mut(command.address() as usize) else {
            return;
        };
        match command {
            Command::Read(_) => {}
            Command::Write(_, bytes) => *block = bytes.as_slice().first().copied().unwrap_or(0),
            Command::Discard(_) => *block = 0,
        }
    }

    /// Carries out commands one after the other, and returns how many of the replies are the array's, each with the ticket
    /// of its command. The first command has the ticket `first`.
    pub(crate) fn right(&mut self, commands: &[Command], first: u64, replies: &[Reply]) -> u64 {
        let mut right: u64 = 0;
        let mut ticket = first;
        for (command, reply) in commands.iter().zip(replies) {
            if self.is_reply(command, reply) && reply.ticket == ticket {
                right = right.saturating_add(1);
            }
            self.change(command);
            ticket = ticket.saturating_add(1);
        }
        right
    }

    /// Carries out commands one after the other.
    pub(crate) fn carry_out(&mut self, commands: &[Command]) {
        for command in commands {
            self.change(command);
        }
    }

    /// Returns an array with the same blocks.
    pub(crate) fn copy(&self) -> Result<PlainArray, AllocError> {
        Ok(PlainArray {
            bytes: self.bytes.clone()?,
        })
    }
}

/// Returns how many replies are those of an array of zeros to `many_commands`, in order. The first command has the ticket
/// `first`.
pub(crate) fn right_replies(
    alloc: Global,
    blocks: u32,
    count: u32,
    first: u64,
    replies: &[Reply],
) -> Result<u64, RowFault> {
    let commands = many_commands(alloc, blocks, count)?;
    let mut array = PlainArray::new(alloc, blocks)?;
    Ok(array.right(&commands, first, replies))
}
