//! Rows about places on the tape. Addresses and words are written as lists, each in one word.

use crate::lists;
use oram_geometry::Device;
use oram_trace::{Entry, MOST_ADDRESSES, RearrangeFault, entry, place, rearrange};
use rows::{Page, RowFault, RowWords};
use std::alloc::Global;

/// Returns whether these are addresses of the device, and not too many.
fn are_addresses(device: &Device, addresses: &[u32]) -> bool {
    let blocks = device.blocks_in(0);
    addresses.len() <= 1_000_000 && addresses.iter().all(|address| *address < blocks)
}

/// `trace places TREE ADDRESSES`: writes the place that each ticket shows in a tree.
fn places(
    alloc: Global,
    device: &Device,
    words: &mut RowWords,
    page: &mut Page,
) -> Result<(), RowFault> {
    let tree = words.byte();
    let addresses = lists::shorts(alloc, words)?;
    if tree >= device.trees() || !are_addresses(device, &addresses) {
        return Err(RowFault::NoRow);
    }
    for ticket in 0..addresses.len() {
        page.number(place(device, &addresses, tree, ticket as u64));
    }
    Ok(())
}

/// Writes an entry.
fn show_entry(entry: Entry, page: &mut Page) {
    page.part();
    page.word(if entry.fetch { "fetch" } else { "store" });
    page.number(entry.tree);
    page.number(entry.leaf);
}

/// `trace entries ADDRESSES TAPE`: writes the path of each entry.
fn entries(
    alloc: Global,
    device: &Device,
    words: &mut RowWords,
    page: &mut Page,
) -> Result<(), RowFault> {
    let addresses = lists::shorts(alloc, words)?;
    let tape = lists::numbers(alloc, words)?;
    if !are_addresses(device, &addresses) {
        return Err(RowFault::NoRow);
    }
    let count = 2 * usize::from(device.trees()) * addresses.len();
    if tape.len() != count {
        return Err(RowFault::NoRow);
    }
    for number in 0..count {
        show_entry(entry(device, &addresses, &tape, number as u64), page);
    }
    Ok(())
}

/// Returns the name of a fault.
fn fault_name(fault: RearrangeFault) -> &'static str {
    match fault {
        RearrangeFault::Lengths => "lengths",
        RearrangeFault::Address => "address",
        RearrangeFault::TooLong => "too-long",
        RearrangeFault::OutOfMemory => "memory",
    }
}

/// `trace fault NAME`: writes the number of a fault.
fn fault(words: &mut RowWords, page: &mut Page) -> Result<(), RowFault> {
    let name = words.text();
    let faults = [
        RearrangeFault::Lengths,
        RearrangeFault::Address,
        RearrangeFault::TooLong,
        RearrangeFault::OutOfMemory,
    ];
    let Some(fault) = faults.iter().find(|fault| fault_name(**fault) == name) else {
        return Err(RowFault::NoRow);
    };
    match fault.number() {
        Some(number) => page.number(number),
        None => page.word("none"),
    }
    Ok(())
}

/// Returns the order of the tape's places in which the second list of addresses shows what the
/// first one does, or the fault.
fn order(
    alloc: Global,
    device: &Device,
    words: &mut RowWords,
) -> Result<Result<Vec<u64>, RearrangeFault>, RowFault> {
    let first = lists::shorts(alloc, words)?;
    let second = lists::shorts(alloc, words)?;
    match rearrange(alloc, device, &first, &second) {
        Err(RearrangeFault::OutOfMemory) => Err(RowFault::OutOfMemory),
        made => Ok(made),
    }
}

/// `trace rearrange ADDRESSES ADDRESSES`: writes this order, or the fault.
fn rearranged(
    alloc: Global,
    device: &Device,
    words: &mut RowWords,
    page: &mut Page,
) -> Result<(), RowFault> {
    match order(alloc, device, words)? {
        Ok(order) => lists::show(&order, page),
        Err(fault) => {
            page.word("fault");
            page.word(fault_name(fault));
        }
    }
    Ok(())
}

/// `trace tape ADDRESSES ADDRESSES TAPE`: writes the tape in this order.
fn tape(
    alloc: Global,
    device: &Device,
    words: &mut RowWords,
    page: &mut Page,
) -> Result<(), RowFault> {
    let Ok(order) = order(alloc, device, words)? else {
        return Err(RowFault::NoRow);
    };
    let tape = lists::numbers(alloc, words)?;
    for place in &order {
        match tape.get(*place as usize) {
            Some(word) => page.number(*word),
            None => return Err(RowFault::NoRow),
        }
    }
    Ok(())
}

/// `trace most`: writes how long lists may be that are rearranged.
fn most(page: &mut Page) -> Result<(), RowFault> {
    page.number(MOST_ADDRESSES);
    Ok(())
}

/// Makes a call.
pub fn answer(
    alloc: Global,
    device: &Device,
    words: &mut RowWords,
    page: &mut Page,
) -> Result<(), RowFault> {
    match words.text() {
        "places" => places(alloc, device, words, page),
        "entries" => entries(alloc, device, words, page),
        "fault" => fault(words, page),
        "most" => most(page),
        "rearrange" => rearranged(alloc, device, words, page),
        "tape" => tape(alloc, device, words, page),
        _ => Err(RowFault::NoRow),
    }
}
