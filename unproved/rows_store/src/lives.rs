//! Stores over the same files, one after the other. In its life, a store is opened, asked, and closed or cut off.

use crate::files::{IDENTITY, created, write_bytes};
use crate::lent::FailingFiles;
use oram_pair::Generation;
use oram_redo::MemoryPair;
use oram_store::{FileStore, StoreFault};
use oram_wire::HostAnswer;
use rows::{NO_ROOM, Page, RowFault, RowWords, lacks_room, show_answer};
use std::alloc::Global;

/// The files that the next stores are opened over.
#[derive(Drop)]
pub struct Lives {
    files: Option<MemoryPair>,
}

/// How the files of a store behave, and how its life ends.
#[derive(Clone, Copy, Debug)]
struct Life {
    /// How many calls its files answer before they fail.
    calls: u64,
    /// The place up to which the log has room.
    log_room: u64,
    /// Whether the store is closed at the end. If not, its process is killed.
    is_closed: bool,
    /// Whether the messages arrive together.
    is_together: bool,
}

/// The most calls that a request makes.
const MOST_CALLS: u64 = 1_000;

/// A life in which the files don't fail, and at the end the process is killed.
const KILLED: Life = Life {
    calls: u64::MAX,
    log_room: u64::MAX,
    is_closed: false,
    is_together: false,
};

/// A life in which the files don't fail, and at the end the store is closed.
const CLOSED: Life = Life {
    calls: u64::MAX,
    log_room: u64::MAX,
    is_closed: true,
    is_together: false,
};

/// Writes why a store didn't do what it was asked. `NoRoom` means that the log has no more room, and `Io` that the files were made to fail.
fn write_fault(page: &mut Page, fault: StoreFault) -> Result<(), RowFault> {
    match fault {
        StoreFault::OutOfMemory => return Err(RowFault::OutOfMemory),
        fault => page.show(&fault),
    }
    Ok(())
}

/// Writes why a store had no room.
fn write_failure(
    store: &FileStore<FailingFiles<'_, MemoryPair>>,
    page: &mut Page,
) -> Result<(), RowFault> {
    match store.failure() {
        Some(fault) => write_fault(page, fault),
        None => {
            page.word("none");
            Ok(())
        }
    }
}

/// Asks a store, and writes its answer. If the store has no room, the reason follows.
fn ask(
    store: &mut FileStore<FailingFiles<'_, MemoryPair>>,
    body: &[u8],
    page: &mut Page,
) -> Result<(), RowFault> {
    let answer = store.handle(body);
    show_answer(&answer, page);
    if matches!(answer, HostAnswer::Refused(NO_ROOM)) {
        write_failure(store, page)?;
    }
    Ok(())
}

/// Has a store empty its log, and drops it. Writes how that ends.
fn close(
    mut store: FileStore<FailingFiles<'_, MemoryPair>>,
    page: &mut Page,
) -> Result<(), RowFault> {
    page.part();
    match store.empty_log() {
        Ok(()) => {
            page.word("closed");
            Ok(())
        }
        Err(fault) => write_fault(page, fault),
    }
}

/// Hands a store messages that have arrived together, and writes how many it answers at once, and with which bytes. If the store has
/// no room, the reason follows.
fn ask_together(
    alloc: Global,
    store: &mut FileStore<FailingFiles<'_, MemoryPair>>,
    bodies: &[Vec<u8>],
    page: &mut Page,
) -> Result<(), RowFault> {
    let mut rest = bodies;
    for _ in 0..bodies.len() {
        if rest.is_empty() {
            break;
        }
        let (count, answer) = store.answer_group(alloc, rest)?;
        page.part();
        page.number(count);
        page.bytes(&answer);
        if lacks_room(&answer) {
            write_failure(store, page)?;
        }
        rest = &rest[count..];
    }
    Ok(())
}

/// Asks a store these bodies, and closes it if the life ends so.
fn ask_each(
    alloc: Global,
    mut store: FileStore<FailingFiles<'_, MemoryPair>>,
    bodies: &[Vec<u8>],
    life: Life,
    page: &mut Page,
) -> Result<(), RowFault> {
    if life.is_together {
        ask_together(alloc, &mut store, bodies, page)?;
    } else {
        for body in bodies {
            page.part();
            ask(&mut store, body, page)?;
        }
    }
    if life.is_closed {
        close(store, page)
    } else {
        Ok(())
    }
}

/// Lets a store live over these files. Writes its answers to the bodies, or why it can't be opened.
fn live(
    alloc: Global,
    files: &mut MemoryPair,
    life: Life,
    bodies: &[Vec<u8>],
    page: &mut Page,
) -> Result<(), RowFault> {
    let lent = FailingFiles {
        files,
        calls: life.calls,
        log_room: life.log_room,
    };
    match FileStore::over(alloc, lent, Generation::first(IDENTITY)) {
        Ok(store) => ask_each(alloc, store, bodies, life, page),
        Err(fault) => write_fault(page, fault),
    }
}

/// Which of the bodies of a row the second of three stores is asked.
#[derive(Clone, Copy, Debug)]
struct Cut {
    /// How many of the last ones.
    count: usize,
    /// Whether they arrive together.
    is_together: bool,
}

/// Lets three stores live over new files, one after the other. The first one is asked the first bodies and closed, so that the log is
/// empty. The second one is asked the last ones, as `cut` says, and its files fail after `calls` calls. The third one is asked the
/// last body. Writes what the last two stores answer.
fn live_thrice(
    alloc: Global,
    bodies: &[Vec<u8>],
    cut: Cut,
    calls: u64,
    page: &mut Page,
) -> Result<(), RowFault> {
    let (first, second) = bodies.split_at(bodies.len().saturating_sub(cut.count));
    let (_, last) = second.split_at(second.len().saturating_sub(1));
    let mut files = created(alloc)?;
    live(alloc, &mut files, CLOSED, first, &mut Page::new(alloc))?;
    let life = Life {
        calls,
        is_together: cut.is_together,
        ..KILLED
    };
    live(alloc, &mut files, life, second, page)?;
    let mut found = Page::new(alloc);
    live(alloc, &mut files, KILLED, last, &mut found)?;
    page.word("then");
    page.page(&found);
    Ok(())
}

/// Writes what `live_thrice` writes, on its own page.
fn case(alloc: Global, bodies: &[Vec<u8>], cut: Cut, calls: u64) -> Result<Page, RowFault> {
    let mut page = Page::new(alloc);
    live_thrice(alloc, bodies, cut, calls, &mut page)?;
    page.text()?;
    Ok(page)
}

/// `life cuts BODIES BODY FETCH`: a store is asked `BODIES` and closed, the next one is asked `BODY` and `FETCH`, and
/// the one after that is asked `FETCH` again. The files of the second store fail after no call, after one, and so on,
/// until they don't cut it off any more. Writes what the last two stores answer; equal answers in a row are written
/// once. `life breaks BODIES BODY BODY FETCH` is the same where the second store is asked two bodies and `FETCH`, which arrive
/// together.
fn cuts(alloc: Global, words: &mut RowWords, cut: Cut, page: &mut Page) -> Result<(), RowFault> {
    let bodies = words.bodies(alloc);
    if bodies.len() < cut.count {
        return Err(RowFault::NoRow);
    }
    let whole = case(alloc, &bodies, cut, u64::MAX)?;
    let mut before = Page::new(alloc);
    for calls in 0..MOST_CALLS {
        let now = case(alloc, &bodies, cut, calls)?;
        if !now.is_like(&before) {
            if calls > 0 {
                page.word("|");
            }
            page.page(&now);
        }
        if now.is_like(&whole) {
            break;
        }
        before = now;
    }
    Ok(())
}

impl Lives {
    pub fn new() -> Lives {
        Lives { files: None }
    }

    /// Answers a row about lives. `life new` makes new files; `life killed BODIES` and `life closed BODIES` let a store
    /// live over them, and `life full PLACE BODIES` one whose log has room up to that place, or `life filled PLACE BODIES`, where the bodies
    /// arrive together; `life file FILE AT LEN` writes bytes
    /// that are in them afterwards.
    pub fn answer(
        &mut self,
        alloc: Global,
        name: &str,
        words: &mut RowWords,
        page: &mut Page,
    ) -> Result<(), RowFault> {
        let cut = match name {
            "cuts" => Some(Cut {
                count: 2,
                is_together: false,
            }),
            "breaks" => Some(Cut {
                count: 3,
                is_together: true,
            }),
            _ => None,
        };
        if let Some(cut) = cut {
            return cuts(alloc, words, cut, page);
        }
        if name == "new" {
            self.files = Some(created(alloc)?);
            page.word("done");
            return Ok(());
        }
        let Some(files) = &mut self.files else {
            return Err(RowFault::NoRow);
        };
        match name {
            "killed" => live(alloc, files, KILLED, &words.bodies(alloc), page),
            "closed" => live(alloc, files, CLOSED, &words.bodies(alloc), page),
            "full" | "filled" => {
                let life = Life {
                    log_room: words.number(),
                    is_together: name == "filled",
                    ..KILLED
                };
                live(alloc, files, life, &words.bodies(alloc), page)
            }
            "file" => write_bytes(alloc, files, words, page),
            _ => Err(RowFault::NoRow),
        }
    }
}
