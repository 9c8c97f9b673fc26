//! A batch over a line that takes only a few bytes at once, and whose host answers each message as soon as it has it.

use crate::batches::lengths;
use crate::far_end::{Answers, FarEnd, HostBehaviour, Messages};
use crate::links::{write_answer, write_answers};
use oram_client::StreamBatches;
use oram_rounds::BatchLink;
use oram_sockets::WriteDuplex;
use rows::{Page, RowFault, RowWords};
use std::alloc::Global;
use std::cell::RefCell;
use std::io;
use std::io::{Error, ErrorKind, Read, Write};

/// The reading end, with what was taken in.
#[derive(Drop)]
struct Arriving<'a> {
    answers: Answers<'a>,
    arrived: Vec<u8>,
    taken: usize,
}

impl<'a> Arriving<'a> {
    /// Returns what was taken in and wasn't read yet.
    fn unread(&self) -> &[u8] {
        self.arrived.get(self.taken..).unwrap_or(&[])
    }

    /// Keeps what has arrived. Tells the far end if there is no memory for it.
    fn keep(&mut self, bytes: &[u8]) -> io::Result<()> {
        if self.arrived.extend_from_slice(bytes).is_ok() {
            return Ok(());
        }
        if let Ok(mut far) = self.answers.0.try_borrow_mut() {
            far.run_out();
        }
        Err(Error::from(ErrorKind::OutOfMemory))
    }

    /// Takes in the rest of the next answer, if the host has its message, but no more than `room` bytes.
    fn take_in(&mut self, room: usize) -> io::Result<()> {
        let mut buf = [0; 256];
        let most = room.saturating_sub(self.unread().len()).min(256);
        match self.answers.read(&mut buf[..most]) {
            Ok(count) => self.keep(&buf[..count]),
            Err(error) if error.kind() == ErrorKind::WouldBlock => Ok(()),
            Err(error) => Err(error),
        }
    }
}

impl<'a> Read for Arriving<'a> {
    fn read(&mut self, buf: &mut [u8]) -> io::Result<usize> {
        let unread = self.unread();
        if unread.is_empty() {
            return self.answers.read(buf);
        }
        let count = unread.len().min(buf.len());
        buf[..count].copy_from_slice(&unread[..count]);
        self.taken = self.taken.saturating_add(count);
        Ok(count)
    }
}

/// The writing end, which takes at most so many bytes at once. If `breaks` says so, it takes none any more once it has so many.
#[derive(Drop)]
struct Slow<'a> {
    messages: Messages<'a>,
    most: usize,
    breaks: usize,
}

impl<'a> Write for Slow<'a> {
    fn write(&mut self, buf: &[u8]) -> io::Result<usize> {
        if self.breaks == 0 {
            return Err(Error::from(ErrorKind::BrokenPipe));
        }
        let count = self
            .messages
            .write(&buf[..buf.len().min(self.most).min(self.breaks)])?;
        self.breaks = self.breaks.saturating_sub(count);
        Ok(count)
    }

    fn flush(&mut self) -> io::Result<()> {
        Ok(())
    }
}

impl<'a> WriteDuplex<Arriving<'a>> for Slow<'a> {
    fn arrived<'r>(&self, reader: &'r Arriving<'a>) -> &'r [u8] {
        reader.unread()
    }

    fn write_duplex(
        &mut self,
        reader: &mut Arriving<'a>,
        bytes: &[u8],
        room: usize,
    ) -> io::Result<Option<usize>> {
        let count = self.write(bytes)?;
        reader.take_in(room)?;
        Ok(Some(count))
    }
}

/// Writes how many bytes the host was sent.
fn write_sent(far: &RefCell<FarEnd>, page: &mut Page) -> Result<(), RowFault> {
    let Ok(far) = far.try_borrow() else {
        return Err(RowFault::NoRow);
    };
    if far.lacks_memory() {
        return Err(RowFault::OutOfMemory);
    }
    page.word("sent");
    page.number(far.sent() as u64);
    Ok(())
}

/// `link slowly MOST BREAKS MESSAGES`: a batch with these messages is begun over a line that takes MOST bytes at once, and breaks off behind
/// BREAKS bytes. Writes how many bytes were sent then, and after each answer, beside it. Between two answers no other batch is taken. At last
/// all messages are sent once more, as a batch whose answers come together, if nothing has failed.
pub fn slowly(alloc: Global, words: &mut RowWords, page: &mut Page) -> Result<(), RowFault> {
    let far = RefCell::new(FarEnd::new(alloc, u64::MAX, HostBehaviour::Honest));
    let Some(lengths) = lengths() else {
        return Err(RowFault::NoRow);
    };
    let reader = Arriving {
        answers: Answers(&far),
        arrived: Vec::new(alloc),
        taken: 0,
    };
    let writer = Slow {
        messages: Messages(&far),
        most: words.number() as usize,
        breaks: words.number() as usize,
    };
    let messages = words.bodies(alloc);
    let mut line = StreamBatches::new(alloc, reader, writer, lengths);
    match line.begin_between(alloc, &[], &messages, &[], &[]) {
        Ok(()) => page.word("begun"),
        Err(fault) => write_answer(alloc, Err(fault), page)?,
    }
    write_sent(&far, page)?;
    for message in messages.iter() {
        if line.call_all(alloc, &[], &messages).is_ok() {
            page.word("another");
        }
        let outcome = line.next_answer(alloc, message);
        let fails = outcome.is_err();
        write_answer(alloc, outcome, page)?;
        write_sent(&far, page)?;
        if fails {
            return Ok(());
        }
    }
    page.word("then");
    write_answer(alloc, line.next_answer(alloc, &[]), page)?;
    let outcome = line.call_all(alloc, &[], &messages);
    write_sent(&far, page)?;
    write_answers(outcome, page)
}
