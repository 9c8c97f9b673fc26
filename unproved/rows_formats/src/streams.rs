//! Frames in a stream: taken out of pieces, read from a reader, and written to a writer.

use oram_wire::{FrameFault, Frames, LONGEST_BODY, next_frame, put_frame};
use rows::{Page, RowFault, RowWords, Source, Target, pace_in};
use std::alloc::Global;

/// The stream whose pieces come row by row.
#[derive(Drop)]
pub struct Streams {
    frames: Option<Frames>,
}

/// Feeds a piece, and writes the bodies that it completes, and whether the stream is broken.
fn write_fed(
    alloc: Global,
    page: &mut Page,
    frames: &mut Frames,
    piece: &[u8],
) -> Result<(), RowFault> {
    let fed = frames.feed(alloc, piece)?;
    for body in &fed.frames {
        page.bytes(body);
    }
    if fed.broken {
        page.word("broken");
    }
    Ok(())
}

/// Writes how many bytes of an unfinished frame are held.
fn write_held(page: &mut Page, frames: &Frames) {
    page.word("held");
    page.number(frames.rest_len());
}

/// `frame pieces SIZE BYTES`: writes the bodies in a stream that comes in pieces of `SIZE` bytes, and how many bytes
/// are held in the end.
fn pieces(alloc: Global, words: &mut RowWords, page: &mut Page) -> Result<(), RowFault> {
    let size = words.size();
    let stream = words.bytes(alloc);
    if size == 0 {
        return Err(RowFault::NoRow);
    }
    let mut frames = Frames::new(alloc);
    for piece in stream.as_slice().chunks(size) {
        write_fed(alloc, page, &mut frames, piece)?;
    }
    write_held(page, &frames);
    Ok(())
}

/// `frame read PACE BYTES`: writes the next body that a reader gives, the bytes that are left, and how many times the
/// reader was called.
fn read(alloc: Global, words: &mut RowWords, page: &mut Page) -> Result<(), RowFault> {
    let pace = pace_in(words)?;
    let bytes = words.bytes(alloc);
    let mut source = Source::new(&bytes, pace);
    match next_frame(alloc, &mut source) {
        Ok(Some(body)) => page.bytes(&body),
        Ok(None) => page.word("none"),
        Err(FrameFault::OutOfMemory) => return Err(RowFault::OutOfMemory),
        Err(fault) => page.show(&fault),
    }
    page.word("left");
    page.bytes(source.rest());
    page.word("calls");
    page.number(source.calls());
    Ok(())
}

/// `frame write ROOM PACE BODY`: writes how writing a frame ends, the bytes that were taken, and how many times the
/// writer was called.
fn write(alloc: Global, words: &mut RowWords, page: &mut Page) -> Result<(), RowFault> {
    let room = words.size();
    let pace = pace_in(words)?;
    let body = words.bytes(alloc);
    if body.len() > LONGEST_BODY {
        return Err(RowFault::NoRow);
    }
    let mut target = Target::new(alloc, room, pace)?;
    let written = put_frame(&mut target, &body);
    page.word(if written.is_ok() { "done" } else { "failed" });
    page.bytes(target.bytes());
    page.word("calls");
    page.number(target.calls());
    Ok(())
}

impl Streams {
    pub fn new() -> Streams {
        Streams { frames: None }
    }

    /// `frame feed PIECE`: writes the bodies that the next piece of the stream completes, and how many bytes are held
    /// then.
    fn feed(
        &mut self,
        alloc: Global,
        words: &mut RowWords,
        page: &mut Page,
    ) -> Result<(), RowFault> {
        let piece = words.bytes(alloc);
        let Some(frames) = &mut self.frames else {
            return Err(RowFault::NoRow);
        };
        write_fed(alloc, page, frames, &piece)?;
        write_held(page, frames);
        Ok(())
    }

    /// Answers a row about frames. `frame stream` begins a new stream of pieces.
    pub fn answer(
        &mut self,
        alloc: Global,
        name: &str,
        words: &mut RowWords,
        page: &mut Page,
    ) -> Result<(), RowFault> {
        match name {
            "stream" => {
                self.frames = Some(Frames::new(alloc));
                page.word("new");
                Ok(())
            }
            "feed" => self.feed(alloc, words, page),
            "pieces" => pieces(alloc, words, page),
            "read" => read(alloc, words, page),
            "write" => write(alloc, words, page),
            _ => Err(RowFault::NoRow),
        }
    }
}
