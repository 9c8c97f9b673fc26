//! Rows of a bucket server at the other end of a link.

use crate::ends::{LimitedWriter, RowReader};
use crate::faults::tell_end;
use oram_host::{BucketServer, Server, host_serve};
use rows::{Page, RowFault, RowWords, lacks_room};
use std::alloc::{AllocError, Global};

/// A server, and whether it has answered that it is out of memory.
#[derive(Drop)]
pub(crate) struct WatchedServer {
    server: Server,
    lacks_memory: bool,
}

impl WatchedServer {
    pub(crate) fn over(server: Server) -> WatchedServer {
        WatchedServer {
            server,
            lacks_memory: false,
        }
    }

    /// Fails if the server ran out of memory, since the row has no answer then.
    pub(crate) fn check_memory(&self) -> Result<(), RowFault> {
        if self.lacks_memory {
            return Err(RowFault::OutOfMemory);
        }
        Ok(())
    }
}

impl BucketServer for WatchedServer {
    ghost use Rattle.oram_host.specs.Service.{Serves};

    ghost serves = { λ old body answer new. Serves old.server body answer new.server };

    fn respond(&mut self, alloc: Global, body: &[u8]) -> Result<Vec<u8>, AllocError> {
        let answer = self.server.answer(alloc, body)?;
        if lacks_room(&answer) {
            self.lacks_memory = true;
        }
        Ok(answer)
    }
}

/// `hosted READER WRITER`: writes what a new server answers to the frames of a reader, and how many
/// there were.
pub(crate) fn hosted(alloc: Global, words: &mut RowWords, page: &mut Page) -> Result<(), RowFault> {
    let mut given = RowReader::read(alloc, words)?;
    let mut sheet = LimitedWriter::read(alloc, words)?;
    let mut host = WatchedServer::over(Server::new(alloc));
    let ended = host_serve(alloc, &mut given, &mut sheet, &mut host);
    host.check_memory()?;
    page.bytes(sheet.text()?);
    tell_end(page, ended)
}
