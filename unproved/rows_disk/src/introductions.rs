//! The introduction of a disk to its host.

use crate::far_end::{Answers, FarEnd, HostBehaviour, Messages};
use oram_client::{AnswerLengths, Identity, IntroductionFault, StreamBatches, introduce};
use oram_geometry::Device;
use oram_stamps::StampKey;
use rows::{Page, RowFault, RowWords, device_in};
use std::alloc::Global;
use std::cell::RefCell;

const IDENTITY: Identity = Identity([0x1d; 32]);

const STAMPS: StampKey = StampKey([0x5e; 32]);

/// Introduces a disk `times` times in turn, or until that fails, each time over a new connection.
fn introduced(
    alloc: Global,
    device: &Device,
    far: &RefCell<FarEnd>,
    times: u32,
) -> Result<(), IntroductionFault> {
    for _ in 0..times {
        let lengths = AnswerLengths::new(device.copy(), 0);
        let mut line = StreamBatches::new(alloc, Answers(far), Messages(far), lengths);
        introduce(alloc, device, 0, &IDENTITY, &STAMPS, &mut line)?;
    }
    Ok(())
}

/// Introduces a disk `times` times. Writes the result, and how many messages were answered.
fn write_introduced(
    alloc: Global,
    page: &mut Page,
    device: &Device,
    far: &RefCell<FarEnd>,
    times: u32,
) -> Result<(), RowFault> {
    let outcome = introduced(alloc, device, far, times);
    let Ok(far) = far.try_borrow() else {
        return Err(RowFault::NoRow);
    };
    if far.lacks_memory() {
        return Err(RowFault::OutOfMemory);
    }
    match outcome {
        Ok(()) => page.word("introduced"),
        Err(IntroductionFault::OutOfMemory) => return Err(RowFault::OutOfMemory),
        Err(fault) => page.show(&fault),
    }
    page.number(far.answered());
    Ok(())
}

/// `introduce over TIMES MOST same|paths|identity SIZES`: introduces a disk `TIMES` times to a host that answers `MOST` messages. With `paths` or
/// `identity` the host changes the paths or the identity that are fetched. Writes the result, and how many messages were answered.
fn over(alloc: Global, words: &mut RowWords, page: &mut Page) -> Result<(), RowFault> {
    let times = words.short();
    let most = words.number();
    let conduct = match words.text() {
        "same" => HostBehaviour::Honest,
        "paths" => HostBehaviour::AltersPaths,
        "identity" => HostBehaviour::AltersIdentity,
        _ => return Err(RowFault::NoRow),
    };
    let device = device_in(words)?;
    let far = RefCell::new(FarEnd::new(alloc, most, conduct));
    write_introduced(alloc, page, &device, &far, times)
}

/// `introduce again MOST SIZES`: introduces a disk to a host that answers `MOST` messages, and then once more, to the same host.
fn again(alloc: Global, words: &mut RowWords, page: &mut Page) -> Result<(), RowFault> {
    let most = words.number();
    let device = device_in(words)?;
    let far = RefCell::new(FarEnd::new(alloc, most, HostBehaviour::Honest));
    write_introduced(alloc, page, &device, &far, 1)?;
    match far.try_borrow_mut() {
        Ok(mut far) => far.reopen(u64::from(u32::MAX)),
        Err(_) => return Err(RowFault::NoRow),
    }
    write_introduced(alloc, page, &device, &far, 1)
}

/// `introduce refused BEHIND CODE SIZES`: introduces a disk to a host that refuses the message after the first `BEHIND` ones with this code.
fn refused(alloc: Global, words: &mut RowWords, page: &mut Page) -> Result<(), RowFault> {
    let conduct = HostBehaviour::Refuses {
        behind: words.number(),
        code: words.byte(),
    };
    let device = device_in(words)?;
    let far = RefCell::new(FarEnd::new(alloc, u64::MAX, conduct));
    write_introduced(alloc, page, &device, &far, 1)
}

/// `introduce meets FIRST SECOND SIZES`: introduces a disk to a host that got these two messages before.
fn meets(alloc: Global, words: &mut RowWords, page: &mut Page) -> Result<(), RowFault> {
    let first = words.bytes(alloc);
    let second = words.bytes(alloc);
    let device = device_in(words)?;
    let mut far = FarEnd::new(alloc, u64::MAX, HostBehaviour::Honest);
    if far.honest_answer(&first).is_err() || far.honest_answer(&second).is_err() {
        return Err(RowFault::OutOfMemory);
    }
    write_introduced(alloc, page, &device, &RefCell::new(far), 1)
}

/// Answers a row about introductions.
pub fn answer(
    alloc: Global,
    name: &str,
    words: &mut RowWords,
    page: &mut Page,
) -> Result<(), RowFault> {
    match name {
        "over" => over(alloc, words, page),
        "again" => again(alloc, words, page),
        "refused" => refused(alloc, words, page),
        "meets" => meets(alloc, words, page),
        _ => Err(RowFault::NoRow),
    }
}
