//! The heads of options and of requests.

use oram_nbd::{Command, HandshakeOption, OptionHead, Request};
use rows::{Page, RowFault, RowWords};
use std::alloc::Global;

/// `head option CODE LENGTH`: writes the head of an option that carries `LENGTH` bytes.
fn option(alloc: Global, words: &mut RowWords, page: &mut Page) -> Result<(), RowFault> {
    let head = OptionHead {
        option: HandshakeOption::of(words.short()),
        length: words.short(),
    };
    page.bytes(&head.encode(alloc)?);
    Ok(())
}

/// `head read_option BYTES`: writes the option of a head, and how many bytes it carries.
fn read_option(alloc: Global, words: &mut RowWords, page: &mut Page) -> Result<(), RowFault> {
    let bytes = words.bytes(alloc);
    let Some(head) = OptionHead::decode(&bytes) else {
        page.word("none");
        return Ok(());
    };
    page.show(&head.option);
    page.number(head.length);
    Ok(())
}

/// Reads the next word as a decimal number below 2^16.
fn code_in(words: &mut RowWords) -> Result<u16, RowFault> {
    Ok(u16::try_from(words.number())?)
}

/// `head request CODE FLAGS COOKIE OFFSET LENGTH`: writes the head of a request.
fn request(alloc: Global, words: &mut RowWords, page: &mut Page) -> Result<(), RowFault> {
    let request = Request {
        command: Command::of(code_in(words)?),
        flags: code_in(words)?,
        cookie: words.number(),
        offset: words.number(),
        length: words.short(),
    };
    page.bytes(&request.encode(alloc)?);
    Ok(())
}

/// `head read_request BYTES`: writes the command of a request, its flags, its cookie, and the range of bytes
/// that it is about.
fn read_request(alloc: Global, words: &mut RowWords, page: &mut Page) -> Result<(), RowFault> {
    let bytes = words.bytes(alloc);
    let Some(request) = Request::decode(&bytes) else {
        page.word("none");
        return Ok(());
    };
    page.show(&request.command);
    page.number(request.flags);
    page.number(request.cookie);
    page.number(request.offset);
    page.number(request.length);
    Ok(())
}

/// Answers a row about heads.
pub fn answer(
    alloc: Global,
    name: &str,
    words: &mut RowWords,
    page: &mut Page,
) -> Result<(), RowFault> {
    match name {
        "option" => option(alloc, words, page),
        "read_option" => read_option(alloc, words, page),
        "request" => request(alloc, words, page),
        "read_request" => read_request(alloc, words, page),
        _ => Err(RowFault::NoRow),
    }
}
