//! A device in memory that stops after a number of calls. It has four blocks of four bytes.

ghost use Rattle.std.specs.Prelude.{◌≡◌, false};

use crate::arrivals::{Sent, Unseen};
use crate::endings::{with_memory, write_ended};
use crate::watches::Stays;
use oram_bytes::Bytes;
use oram_nbd::{
    BlockDevice, ClientWatch, Command, DiskFault, MemDisk, NbdFault, Operation, Request, transmit,
};
use rows::{Pace, Page, RowFault, RowWords, Source, Target};
use std::alloc::{AllocError, Global};

/// The most bytes that a client receives.
const ROOM: usize = 4_096;

/// The number of bytes of the device.
const SIZE: u32 = 16;

/// How a connection ended, and the writer that has what the client received.
type Talk = (Result<u64, NbdFault>, Target);

#[derive(Drop)]
struct StoppingDisk {
    disk: MemDisk,
    calls_left: u64,
}

/// Takes one of the calls that are left, and returns whether there was one.
fn take_call(calls_left: &mut u64) -> bool {
    let is_left = *calls_left > 0;
    *calls_left = calls_left.saturating_sub(1);
    is_left
}

impl BlockDevice for StoppingDisk {
    ghost use Rattle.oram_nbd.specs.Beside.{HadWithin};

    ghost block_len = { λ d. ⟦<MemDisk as BlockDevice>⟧.block_len d.disk };

    ghost size = { λ d. ⟦<MemDisk as BlockDevice>⟧.size d.disk };

    ghost World = { ⟦<MemDisk as BlockDevice>⟧.World };

    ghost Event = { ⟦<MemDisk as BlockDevice>⟧.Event };

    ghost hears = { ⟦<MemDisk as BlockDevice>⟧.hears };

    ghost asked = { λ _ _ _. Unit {0} };

    ghost had = { λ d events e. HadWithin ⟦<MemDisk as BlockDevice>⟧.had d.disk events e.disk };

    ghost holds = { λ may_lie d world bytes. ⟦<MemDisk as BlockDevice>⟧.holds may_lie d.disk world bytes };

    ghost kept = { λ may_lie d world saved bytes. ⟦<MemDisk as BlockDevice>⟧.kept may_lie d.disk world saved bytes };

    ghost failed = { λ _. ⊥ };

    ghost stops = { λ d e. (d.calls_left ≡ 0) × (e.calls_left ≡ 0) };

    fn has_failed(&self) -> bool {
        false
    }

    fn block_bytes(&self) -> u32 {
        self.disk.block_bytes()
    }

    fn blocks(&self) -> u64 {
        self.disk.blocks()
    }

    fn carry_out<H: ClientWatch>(
        &mut self,
        alloc: Global,
        operations: &[Operation],
        watch: &mut H,
    ) -> Result<Vec<Bytes>, DiskFault> {
        if !take_call(&mut self.calls_left) {
            return Err(DiskFault::Stopped);
        }
        self.disk.carry_out(alloc, operations, watch)
    }
}

/// Serves a client that sends these requests.
fn talked(alloc: Global, disk: &mut StoppingDisk, said: &[u8]) -> Result<Talk, RowFault> {
    let mut source = Unseen {
        reader: Source::new(said, Pace::smooth(false)),
    };
    let mut target = Target::new(alloc, ROOM, Pace::smooth(true))?;
    let ended = transmit(alloc, &mut source, &mut target, disk, &mut Stays::on());
    Ok((with_memory(ended, target.bytes())?, target))
}

/// `nbd together CALLS SAID`: the requests `SAID` of a client have all arrived, and its device stops after `CALLS` calls.
/// Writes how the client's connection ends, how many calls the device took, what the client receives, and the bytes of the
/// device.
pub fn together(alloc: Global, words: &mut RowWords, page: &mut Page) -> Result<(), RowFault> {
    let mut disk = StoppingDisk {
        disk: MemDisk::new(alloc, 4, 4)?,
        calls_left: words.number(),
    };
    let before = disk.calls_left;
    let said = words.bytes(alloc);
    let mut sent = Sent {
        source: Source::new(&said, Pace::smooth(false)),
    };
    let mut target = Target::new(alloc, ROOM, Pace::smooth(true))?;
    let ended = transmit(alloc, &mut sent, &mut target, &mut disk, &mut Stays::on());
    write_ended(page, with_memory(ended, target.bytes())?)?;
    page.number(before.saturating_sub(disk.calls_left));
    page.bytes(target.bytes());
    disk.calls_left = u64::MAX;
    let read = talked(
        alloc,
        &mut disk,
        &said_of(alloc, Command::Read, 0, SIZE, 0)?,
    )?;
    page.bytes(read.1.bytes());
    Ok(())
}

/// `nbd stops CALLS SAID`: a client sends the requests `SAID` to a device that stops after `CALLS` calls. Writes
/// how its connection ends, and what it receives.
pub fn stops(alloc: Global, words: &mut RowWords, page: &mut Page) -> Result<(), RowFault> {
    let mut disk = StoppingDisk {
        disk: MemDisk::new(alloc, 4, 4)?,
        calls_left: words.number(),
    };
    let talk = talked(alloc, &mut disk, &words.bytes(alloc))?;
    write_ended(page, talk.0)?;
    page.bytes(talk.1.bytes());
    Ok(())
}

/// Returns what a client sends for a request. The bytes of a write are `first` and the numbers after it.
fn said_of(
    alloc: Global,
    command: Command,
    offset: u64,
    length: u32,
    first: u8,
) -> Result<Vec<u8>, AllocError> {
    let request = Request {
        command,
        flags: 0,
        cookie: 0,
        offset,
        length,
    };
    let mut said = request.encode(alloc)?;
    let mut byte = first;
    for _ in 0..request.payload_len() {
        said.push(byte)?;
        byte = byte.wrapping_add(1);
    }
    Ok(said)
}

/// Reads the command of a request for a range.
fn command_in(words: &mut RowWords) -> Result<Command, RowFault> {
    match words.text() {
        "read" => Ok(Command::Read),
        "write" => Ok(Command::Write),
        "zeroes" => Ok(Command::WriteZeroes),
        "trim" => Ok(Command::Trim),
        _ => Err(RowFault::NoRow),
    }
}

/// `nbd range COMMAND OFFSET LENGTH`: a client sends a request for a range of a device that holds the bytes 01 to 10
/// (hexadecimal), and then reads the whole device. The bytes of a write are a1, a2 and so on. Writes how many calls of the
/// device the request took, its reply, and the reply to the read.
pub fn range(alloc: Global, words: &mut RowWords, page: &mut Page) -> Result<(), RowFault> {
    let command = command_in(words)?;
    let offset = words.number();
    let length = words.short();
    let mut disk = StoppingDisk {
        disk: MemDisk::new(alloc, 4, 4)?,
        calls_left: u64::MAX,
    };
    let _filled = talked(
        alloc,
        &mut disk,
        &said_of(alloc, Command::Write, 0, SIZE, 1)?,
    )?;
    let before = disk.calls_left;
    let done = talked(
        alloc,
        &mut disk,
        &said_of(alloc, command, offset, length, 0xa1)?,
    )?;
    page.number(before.saturating_sub(disk.calls_left));
    page.bytes(done.1.bytes());
    let read = talked(
        alloc,
        &mut disk,
        &said_of(alloc, Command::Read, 0, SIZE, 0)?,
    )?;
    page.bytes(read.1.bytes());
    Ok(())
}
