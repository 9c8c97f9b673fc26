//! The answers of a store and of the bucket server in memory to the same body.

use oram_host::Server;
use oram_redo::MemoryPair;
use oram_store::FileStore;
use oram_wire::HostAnswer;
use rows::{NO_ROOM, Page, RowFault, lacks_room, show_answer};
use std::alloc::Global;

/// Writes an answer. Here a host has no room only if memory ran out, so this fails then.
pub fn write_answer(page: &mut Page, answer: &HostAnswer) -> Result<(), RowFault> {
    if matches!(answer, HostAnswer::Refused(NO_ROOM)) {
        return Err(RowFault::OutOfMemory);
    }
    show_answer(answer, page);
    Ok(())
}

/// Writes the answer of one of the two on its own page.
fn written(alloc: Global, answer: &HostAnswer) -> Result<Page, RowFault> {
    let mut page = Page::new(alloc);
    write_answer(&mut page, answer)?;
    Ok(page)
}

/// Writes the answer of both if it is the same, and else the answer of each.
fn write_both(page: &mut Page, store: &Page, server: &Page) {
    if store.is_like(server) {
        page.page(store);
        return;
    }
    page.word("store");
    page.page(store);
    page.part();
    page.word("server");
    page.page(server);
}

/// Asks both, and writes their answers.
pub fn ask(
    alloc: Global,
    store: &mut FileStore<MemoryPair>,
    server: &mut Server,
    body: &[u8],
    page: &mut Page,
) -> Result<(), RowFault> {
    let of_store = written(alloc, &store.handle(body))?;
    let of_server = written(alloc, &server.handle(body))?;
    write_both(page, &of_store, &of_server);
    Ok(())
}

/// Writes the bytes of an answer on their own page. Here a host has no room only if memory ran out, so this fails
/// then.
pub fn spelled(alloc: Global, answer: &[u8]) -> Result<Page, RowFault> {
    if lacks_room(answer) {
        return Err(RowFault::OutOfMemory);
    }
    let mut page = Page::new(alloc);
    page.bytes(answer);
    Ok(page)
}

/// Asks both, and writes the bytes of their answers.
pub fn ask_bytes(
    alloc: Global,
    store: &mut FileStore<MemoryPair>,
    server: &mut Server,
    body: &[u8],
    page: &mut Page,
) -> Result<(), RowFault> {
    let of_store = spelled(alloc, &store.answer(alloc, body)?)?;
    let of_server = spelled(alloc, &server.answer(alloc, body)?)?;
    write_both(page, &of_store, &of_server);
    Ok(())
}
