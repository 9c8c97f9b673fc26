//! Bucket hosts.

use oram_host::Server;
use oram_wire::{HostAnswer, Sink, SinkFault};
use rows::{NO_ROOM, Page, RowFault, RowWords, flip_in, host_answer, show_answer, swap_in};
use std::alloc::Global;

/// The host of the next rows, and the copy of it that was kept.
#[derive(Drop)]
pub struct Servers {
    server: Option<Server>,
    copy: Option<Server>,
}

/// `server asks BODY`: writes the answer to a body. `server bytes BODY`: writes the bytes of the answer. `server put BODY`:
/// writes whether the host takes a body of a formatting.
fn answer_body(
    alloc: Global,
    server: &mut Server,
    name: &str,
    words: &mut RowWords,
    page: &mut Page,
) -> Result<(), RowFault> {
    let body = words.bytes(alloc);
    match name {
        "asks" => match server.handle(&body) {
            HostAnswer::Refused(NO_ROOM) => return Err(RowFault::OutOfMemory),
            answer => show_answer(&answer, page),
        },
        "bytes" => page.bytes(&host_answer(alloc, server, &body)?),
        _ => match server.put(&body) {
            Ok(()) => page.word("taken"),
            Err(SinkFault::OutOfMemory) => return Err(RowFault::OutOfMemory),
            Err(fault) => page.show(&fault),
        },
    }
    Ok(())
}

/// Answers a row about the host that is there. `server flip TREE NODE PLACE` flips a bit of a byte in a record, and writes
/// whether there is such a byte. `server swap TREE NODE TREE NODE` swaps two records, and writes whether there are two that can
/// be swapped.
fn answer_of(
    alloc: Global,
    server: &mut Server,
    name: &str,
    words: &mut RowWords,
    page: &mut Page,
) -> Result<(), RowFault> {
    match name {
        "asks" | "bytes" | "put" => return answer_body(alloc, server, name, words, page),
        "flip" => page.flag(flip_in(server, words)),
        "swap" => page.flag(swap_in(server, words)),
        _ => return Err(RowFault::NoRow),
    }
    Ok(())
}

impl Servers {
    pub fn new() -> Servers {
        Servers {
            server: None,
            copy: None,
        }
    }

    /// Returns the host.
    pub fn server(&self) -> Result<&Server, RowFault> {
        self.server.as_ref().ok_or(RowFault::NoRow)
    }

    /// Goes on with another host.
    pub fn go_on_with(&mut self, server: Server) {
        self.server = Some(server);
    }

    /// `server copy`: keeps a copy of the host.
    fn keep_copy(&mut self, alloc: Global) -> Result<(), RowFault> {
        let copy = self.server()?.copy(alloc)?;
        self.copy = Some(copy);
        Ok(())
    }

    /// Answers a row about a host. `server new` makes a new host, and `server other` goes on with the
    /// copy.
    pub fn answer(
        &mut self,
        alloc: Global,
        name: &str,
        words: &mut RowWords,
        page: &mut Page,
    ) -> Result<(), RowFault> {
        match name {
            "new" => self.server = Some(Server::new(alloc)),
            "copy" => self.keep_copy(alloc)?,
            "other" => self.server = self.copy.take(),
            _ => {
                let Some(server) = &mut self.server else {
                    return Err(RowFault::NoRow);
                };
                return answer_of(alloc, server, name, words, page);
            }
        }
        page.word("done");
        Ok(())
    }
}
