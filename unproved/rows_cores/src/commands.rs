//! Reads commands and events from words.

use oram_bytes::{Bytes, Words as Tape};
use oram_semantics::{Command, Event};
use rows::{Page, RowFault, RowWords};
use std::alloc::Global;

/// Reads a command of this kind: `read ADDRESS`, `write ADDRESS DATA` or `discard ADDRESS`.
pub fn command_of(alloc: Global, kind: &str, words: &mut RowWords) -> Result<Command, RowFault> {
    let address = words.short();
    match kind {
        "read" => Ok(Command::Read(address)),
        "write" => Ok(Command::Write(address, Bytes::from_vec(words.bytes(alloc)))),
        "discard" => Ok(Command::Discard(address)),
        _ => Err(RowFault::NoRow),
    }
}

/// Reads an event of this kind: `KIND SESSION ADDRESS [DATA] TAPE` for a command, `hear BYTES` for an answer, `lost`,
/// `reopened` or `retry`.
pub fn event_of(alloc: Global, kind: &str, words: &mut RowWords) -> Result<Event, RowFault> {
    match kind {
        "hear" => Ok(Event::Answer(Bytes::from_vec(words.bytes(alloc)))),
        "lost" => Ok(Event::Lost),
        "reopened" => Ok(Event::Reopen),
        "retry" => Ok(Event::Retry),
        _ => {
            let session = words.short();
            let command = command_of(alloc, kind, words)?;
            Ok(Event::Submit {
                session,
                command,
                words: Tape::from_vec(words.numbers(alloc)),
            })
        }
    }
}

/// Writes a command.
pub fn show_command(command: &Command, page: &mut Page) {
    page.word(match command {
        Command::Read(_) => "read",
        Command::Write(..) => "write",
        Command::Discard(_) => "discard",
    });
    page.number(command.address());
    if let Command::Write(_, bytes) = command {
        page.bytes(bytes.as_slice());
    }
}
