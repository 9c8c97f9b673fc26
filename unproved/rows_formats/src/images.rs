//! The images of bucket hosts.

use crate::fault_text::show_fault;
use crate::servers::Servers;
use oram_host::{ImageFault, Server};
use rows::{Page, RowFault, RowWords, Source, Target, pace_in};
use std::alloc::Global;

/// `image save ROOM PACE`: writes how saving the host's image ends, and the bytes that were written.
fn save(
    alloc: Global,
    server: &Server,
    words: &mut RowWords,
    page: &mut Page,
) -> Result<(), RowFault> {
    let room = words.size();
    let mut target = Target::new(alloc, room, pace_in(words)?)?;
    match server.save_image(&mut target) {
        Ok(()) => page.word("saved"),
        Err(fault) => show_fault(page, fault.number(), &fault),
    }
    page.bytes(target.bytes());
    Ok(())
}

/// `image load PACE BYTES`: loads an image, and writes how that ends. The next rows are about the host
/// that was loaded.
fn load(
    alloc: Global,
    servers: &mut Servers,
    words: &mut RowWords,
    page: &mut Page,
) -> Result<(), RowFault> {
    let pace = pace_in(words)?;
    let bytes = words.bytes(alloc);
    match Server::load_image(alloc, &mut Source::new(&bytes, pace)) {
        Ok(server) => {
            servers.go_on_with(server);
            page.word("loaded");
        }
        Err(ImageFault::OutOfMemory) => return Err(RowFault::OutOfMemory),
        Err(fault) => show_fault(page, fault.number(), &fault),
    }
    Ok(())
}

/// Answers a row about images.
pub fn answer(
    alloc: Global,
    servers: &mut Servers,
    name: &str,
    words: &mut RowWords,
    page: &mut Page,
) -> Result<(), RowFault> {
    let want = ImageFault::OutOfMemory;
    match name {
        "save" => save(alloc, servers.server()?, words, page),
        "load" => load(alloc, servers, words, page),
        "want" => {
            show_fault(page, want.number(), &want);
            Ok(())
        }
        _ => Err(RowFault::NoRow),
    }
}
