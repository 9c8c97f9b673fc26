//! Rows of two or three lives of a device.

use crate::devices::new_device;
use crate::hosts::{HostPlace, Way};
use crate::keepers::{MemoryKeeper, Room};
use crate::lives::{Found, Life};
use oram_rounds::RoundFault;
use rows::{Page, RowFault, RowWords};
use std::alloc::Global;

/// Writes why a life ended, if it ended early; how many files were kept; and how many messages were sent.
fn tell_life(
    page: &mut Page,
    place: &HostPlace,
    life: &Life,
    ended: Option<RoundFault>,
) -> Result<(), RowFault> {
    life.keeper.check_memory()?;
    if let Some(fault) = ended {
        page.fault(fault);
    }
    page.word("kept");
    page.number(life.keeper.kept);
    let sent = place.sent()?;
    page.word("fetches");
    page.number(sent.fetches);
    page.word("stores");
    page.number(sent.stores);
    Ok(())
}

/// Returns how many blocks have what was written to them, if those are the first ones and the others are zeros.
fn count_of(found: &[Found]) -> Option<usize> {
    let count = found
        .iter()
        .take_while(|block| **block == Found::Written)
        .count();
    let zeros = found.iter().skip(count).all(|block| *block == Found::Zeros);
    zeros.then_some(count)
}

/// Writes how many blocks were found written, of those that were read.
fn tell_found(page: &mut Page, found: &[Found]) {
    page.word("found");
    match count_of(found) {
        Some(count) => page.number(count),
        None => page.word("otherwise"),
    }
    page.word("of");
    page.number(found.len());
}

/// Goes on with what waits and reads the blocks, and writes what was found and how the life went.
fn tell_reading(
    alloc: Global,
    place: &HostPlace,
    life: &mut Life,
    page: &mut Page,
) -> Result<(), RowFault> {
    let mut found = Vec::new(alloc);
    let ended = life.go_on_and_read(alloc, &mut found)?;
    page.part();
    tell_found(page, &found);
    tell_life(page, place, life, ended)
}

/// Lets a life that has begun write, and the lives after it read, and writes how they went: what `lives` does after its first
/// five words.
fn write_and_read(
    alloc: Global,
    round: u8,
    place: &HostPlace,
    life: &mut Life,
    words: &mut RowWords,
    page: &mut Page,
) -> Result<(), RowFault> {
    let (written, ended) = life.write_all(alloc, round)?;
    page.word("written");
    page.number(written);
    tell_life(page, place, life, ended)?;
    if !words.is_empty() {
        life.next(alloc, Room::read(words)?)?;
        place.set(Way::read(alloc, words)?)?;
        tell_reading(alloc, place, life, page)?;
    }
    life.next(alloc, Room::AMPLE)?;
    place.set(Way::Honest)?;
    tell_reading(alloc, place, life, page)
}

/// `lives DEVICE ROUND KEEPER WAY`: lets a device write three blocks, `ROUND` in each round, in a life that may end early.
/// The next life begins from what was kept, over the same host, and reads these blocks and one that was not written.
/// Writes of the first life how many writes had their reply, and of the next one how many blocks it found written; of
/// each life why it ended early, how many files were kept, and how many FETCHes and STOREs were sent.
///
/// With another `KEEPER WAY` after it there is a life between these two, which reads the blocks too and may end early.
pub(crate) fn lives(alloc: Global, words: &mut RowWords, page: &mut Page) -> Result<(), RowFault> {
    let (server, file) = new_device(alloc, words)?;
    let round = words.byte();
    let place = HostPlace::new();
    let keeper = MemoryKeeper::with(alloc, file, Room::read(words)?);
    place.put(server, Way::read(alloc, words)?);
    let mut life = Life::begin(alloc, &place, keeper)?;
    write_and_read(alloc, round, &place, &mut life, words, page)
}
