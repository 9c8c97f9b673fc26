//! A store over two files in memory, compared with the bucket server in memory.

use crate::answers::{ask, ask_bytes, spelled, write_answer};
use crate::files::{IDENTITY, created};
use oram_host::Server;
use oram_pair::Generation;
use oram_redo::{FileKind, FilePair, MemoryPair};
use oram_store::{FileStore, StoreFault};
use oram_wire::{Sink, SinkFault};
use rows::{Page, RowFault, RowWords, show_answer};
use std::alloc::Global;

/// The store that the next rows ask, and the server that gets the same bodies.
#[derive(Drop)]
pub struct Stores {
    store: Option<FileStore<MemoryPair>>,
    server: Option<Server>,
}

/// Returns why a store couldn't be opened or closed. Files in memory fail only if memory ran out, so this fails then.
fn fault_of(fault: StoreFault) -> Result<StoreFault, RowFault> {
    match fault {
        StoreFault::OutOfMemory | StoreFault::NoRoom | StoreFault::Io | StoreFault::Closed => {
            Err(RowFault::OutOfMemory)
        }
        other => Ok(other),
    }
}

/// Writes how a call ended.
fn write_end(page: &mut Page, ended: Result<(), StoreFault>) -> Result<(), RowFault> {
    match ended {
        Ok(()) => page.word("done"),
        Err(fault) => page.show(&fault_of(fault)?),
    }
    Ok(())
}

/// Writes bytes at the beginning of a file.
fn fill(files: &mut MemoryPair, file: FileKind, bytes: &[u8]) -> Result<(), RowFault> {
    match files.write_at(file, 0, bytes) {
        Ok(()) => Ok(()),
        Err(_) => Err(RowFault::OutOfMemory),
    }
}

/// `store failure`: writes why there was no room, the last time that there was none.
fn write_failure(store: &FileStore<MemoryPair>, page: &mut Page) {
    match store.failure() {
        Some(fault) => page.show(&fault),
        None => page.word("none"),
    }
}

/// `store alone BODY`: asks the store alone, and writes its answer. `store answer BODY`: writes the bytes of its answer. `store full
/// BODY`: writes that the store has no room for a body, and why. `store put BODY`: writes whether the store takes a body of a
/// formatting.
fn tell(
    alloc: Global,
    store: &mut FileStore<MemoryPair>,
    name: &str,
    words: &mut RowWords,
    page: &mut Page,
) -> Result<(), RowFault> {
    let body = words.bytes(alloc);
    match name {
        "alone" => write_answer(page, &store.handle(&body))?,
        "answer" => page.page(&spelled(alloc, &store.answer(alloc, &body)?)?),
        "full" => {
            show_answer(&store.handle(&body), page);
            write_failure(store, page);
        }
        _ => match store.put(&body) {
            Ok(()) => page.word("taken"),
            Err(SinkFault::OutOfMemory) => return Err(RowFault::OutOfMemory),
            Err(fault) => page.show(&fault),
        },
    }
    Ok(())
}

/// `store together BODIES`: hands the store messages that have arrived together, and writes how many it answers at once, and with which
/// bytes, until all are answered. The server gets the same messages one by one; an answer that differs is written behind it.
fn arrive(
    alloc: Global,
    store: &mut FileStore<MemoryPair>,
    server: &mut Server,
    messages: &[Vec<u8>],
    page: &mut Page,
) -> Result<(), RowFault> {
    let mut rest = messages;
    for _ in 0..messages.len() {
        if rest.is_empty() {
            break;
        }
        let (count, answer) = store.answer_group(alloc, rest)?;
        let of_store = spelled(alloc, &answer)?;
        page.part();
        page.number(count);
        page.page(&of_store);
        for message in &rest[..count] {
            let of_server = spelled(alloc, &server.answer(alloc, message)?)?;
            if !of_store.is_like(&of_server) {
                page.word("server");
                page.page(&of_server);
            }
        }
        rest = &rest[count..];
    }
    Ok(())
}

/// `store short BODIES`: writes how many messages a store answers at once, with which bytes, and why it had no room, if it had none.
fn arrive_full(
    alloc: Global,
    store: &mut FileStore<MemoryPair>,
    messages: &[Vec<u8>],
    page: &mut Page,
) -> Result<(), RowFault> {
    // A row has messages, so they are missing only if memory ran out.
    if messages.is_empty() {
        return Err(RowFault::OutOfMemory);
    }
    let (count, answer) = store.answer_group(alloc, messages)?;
    page.number(count);
    page.bytes(&answer);
    match store.failure() {
        Some(StoreFault::NoRoom) => page.show(&StoreFault::NoRoom),
        Some(fault) => page.show(&fault_of(fault)?),
        None => page.word("none"),
    }
    Ok(())
}

/// Answers a row about the store alone.
fn answer_of(
    alloc: Global,
    store: &mut FileStore<MemoryPair>,
    name: &str,
    words: &mut RowWords,
    page: &mut Page,
) -> Result<(), RowFault> {
    match name {
        "alone" | "answer" | "full" | "put" => tell(alloc, store, name, words, page),
        "short" => arrive_full(alloc, store, &words.bodies(alloc), page),
        "commit" => write_end(page, store.commit_puts()),
        "failure" => {
            write_failure(store, page);
            Ok(())
        }
        _ => Err(RowFault::NoRow),
    }
}

impl Stores {
    pub fn new() -> Stores {
        Stores {
            store: None,
            server: None,
        }
    }

    /// Opens a store over these files, and makes a server without trees.
    fn open(&mut self, alloc: Global, files: MemoryPair, page: &mut Page) -> Result<(), RowFault> {
        self.server = Some(Server::new(alloc));
        match FileStore::over(alloc, files, Generation::first(IDENTITY)) {
            Ok(store) => {
                self.store = Some(store);
                page.word("done");
            }
            Err(fault) => {
                self.store = None;
                page.show(&fault_of(fault)?);
            }
        }
        Ok(())
    }

    /// `store new`: opens a store over new files.
    fn begin(&mut self, alloc: Global, page: &mut Page) -> Result<(), RowFault> {
        let files = created(alloc)?;
        self.open(alloc, files, page)
    }

    /// `store over RECORDS LOG`: opens a store over files with these bytes.
    fn over(
        &mut self,
        alloc: Global,
        words: &mut RowWords,
        page: &mut Page,
    ) -> Result<(), RowFault> {
        let mut files = MemoryPair::new(alloc);
        fill(&mut files, FileKind::Records, &words.bytes(alloc))?;
        fill(&mut files, FileKind::Log, &words.bytes(alloc))?;
        self.open(alloc, files, page)
    }

    /// `store close`: closes the store, and writes how that ends. After that there is no store.
    fn close(&mut self, page: &mut Page) -> Result<(), RowFault> {
        match self.store.take() {
            Some(mut store) => write_end(page, store.empty_log()),
            None => Err(RowFault::NoRow),
        }
    }

    /// `store ask BODY`: writes the answers of the store and of the server to a body; `store bytes BODY`: writes the
    /// bytes of their answers.
    fn ask(
        &mut self,
        alloc: Global,
        name: &str,
        words: &mut RowWords,
        page: &mut Page,
    ) -> Result<(), RowFault> {
        let (Some(store), Some(server)) = (&mut self.store, &mut self.server) else {
            return Err(RowFault::NoRow);
        };
        let body = words.bytes(alloc);
        if name == "ask" {
            ask(alloc, store, server, &body, page)
        } else {
            ask_bytes(alloc, store, server, &body, page)
        }
    }

    /// Answers a row about messages that arrive together.
    fn together(
        &mut self,
        alloc: Global,
        words: &mut RowWords,
        page: &mut Page,
    ) -> Result<(), RowFault> {
        match (&mut self.store, &mut self.server) {
            (Some(store), Some(server)) => {
                arrive(alloc, store, server, &words.bodies(alloc), page)
            }
            _ => Err(RowFault::NoRow),
        }
    }

    /// Answers a row about a store.
    pub fn answer(
        &mut self,
        alloc: Global,
        name: &str,
        words: &mut RowWords,
        page: &mut Page,
    ) -> Result<(), RowFault> {
        match name {
            "new" => self.begin(alloc, page),
            "over" => self.over(alloc, words, page),
            "close" => self.close(page),
            "ask" | "bytes" => self.ask(alloc, name, words, page),
            "together" => self.together(alloc, words, page),
            _ => match &mut self.store {
                Some(store) => answer_of(alloc, store, name, words, page),
                None => Err(RowFault::NoRow),
            },
        }
    }
}
