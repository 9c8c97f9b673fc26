//! The messages that a client sends over a session, and the replies.

use crate::messages::end_reading;
use oram_bytes::Bytes;
use oram_wire::{BAD_REQUEST, DEVICE_FAILED, SessionReply, SessionRequest, WireFault};
use rows::{Page, RowFault, RowWords};
use std::alloc::Global;

/// Reads a request from words, in the form in which `write_request` writes it.
fn request_in(alloc: Global, words: &mut RowWords) -> Result<SessionRequest, RowFault> {
    match words.text() {
        "read" => Ok(SessionRequest::Read {
            address: words.short(),
        }),
        "write" => Ok(SessionRequest::Write {
            address: words.short(),
            bytes: Bytes::from_vec(words.bytes(alloc)),
        }),
        "discard" => Ok(SessionRequest::Discard {
            address: words.short(),
        }),
        _ => Err(RowFault::NoRow),
    }
}

/// Writes a request: its name, the address and its bytes.
fn write_request(page: &mut Page, request: &SessionRequest) {
    match request {
        SessionRequest::Read { address } => {
            page.word("read");
            page.number(*address);
        }
        SessionRequest::Write { address, bytes } => {
            page.word("write");
            page.number(*address);
            page.bytes(bytes.as_slice());
        }
        SessionRequest::Discard { address } => {
            page.word("discard");
            page.number(*address);
        }
    }
}

/// `session write REQUEST`: writes the body of a request.
fn write(alloc: Global, words: &mut RowWords, page: &mut Page) -> Result<(), RowFault> {
    let request = request_in(alloc, words)?;
    page.bytes(&request.encode(alloc)?);
    Ok(())
}

/// `session data BYTES`: writes the body of the reply with this data.
fn data(alloc: Global, words: &mut RowWords, page: &mut Page) -> Result<(), RowFault> {
    let bytes = Bytes::from_vec(words.bytes(alloc));
    page.bytes(&SessionReply::Data(bytes).encode(alloc)?);
    Ok(())
}

/// `session done`: writes the body of the reply `done`.
fn done(alloc: Global, page: &mut Page) -> Result<(), RowFault> {
    page.bytes(&SessionReply::Done.encode(alloc)?);
    Ok(())
}

/// `session refused CODE`: writes the body of a refusal.
fn refused(alloc: Global, words: &mut RowWords, page: &mut Page) -> Result<(), RowFault> {
    let code = words.byte();
    if code == 0 || code > 7 {
        return Err(RowFault::NoRow);
    }
    page.bytes(&SessionReply::Refused(code).encode(alloc)?);
    Ok(())
}

/// `session codes`: writes the codes of a failed device, and of a body that is no request.
fn codes(page: &mut Page) -> Result<(), RowFault> {
    page.number(DEVICE_FAILED);
    page.number(BAD_REQUEST);
    Ok(())
}

fn write_reply(page: &mut Page, reply: &SessionReply) {
    match reply {
        SessionReply::Done => page.word("done"),
        SessionReply::Data(bytes) => {
            page.word("data");
            page.bytes(bytes.as_slice());
        }
        SessionReply::Refused(code) => {
            page.word("refused");
            page.number(*code);
        }
    }
}

/// `session read BODY` and `session replied BODY`: reads a body as a request or as a reply, and writes it.
fn read(alloc: Global, name: &str, body: &[u8], page: &mut Page) -> Result<(), WireFault> {
    match name {
        "read" => write_request(page, &SessionRequest::decode(alloc, body)?),
        _ => write_reply(page, &SessionReply::decode(alloc, body)?),
    }
    Ok(())
}

/// Answers a row about a session's messages.
pub fn answer(
    alloc: Global,
    name: &str,
    words: &mut RowWords,
    page: &mut Page,
) -> Result<(), RowFault> {
    match name {
        "write" => write(alloc, words, page),
        "read" | "replied" => {
            let body = words.bytes(alloc);
            let read = read(alloc, name, &body, page);
            end_reading(page, read)
        }
        "data" => data(alloc, words, page),
        "done" => done(alloc, page),
        "refused" => refused(alloc, words, page),
        "codes" => codes(page),
        _ => Err(RowFault::NoRow),
    }
}
