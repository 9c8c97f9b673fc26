//! Rows of sessions whose host is at the other end of a reader and a writer.

use crate::answers::WatchedServer;
use crate::ends::{LimitedWriter, RowReader};
use crate::faults::tell_end;
use crate::sessions::{formatted, served};
use oram_geometry::Device;
use oram_session::{ListTape, ServeFault, StreamLink, host_serve};
use rows::{Page, RowFault, RowWords, device_in};
use std::alloc::Global;

/// The most answers that a session may need.
const MOST_ANSWERS: u64 = 100;

/// A session, and how far it has come.
#[derive(Drop)]
struct RemoteSession {
    device: Device,
    given: RowReader,
    /// The host's answers so far.
    answers: Vec<u8>,
    replies: LimitedWriter,
    sent: LimitedWriter,
}

impl RemoteSession {
    /// Serves the session from its beginning, with these answers.
    fn serve(&mut self, alloc: Global) -> Result<Result<u64, ServeFault>, RowFault> {
        let (mut core, _host) = formatted(alloc, &self.device)?;
        self.given.rewind();
        self.replies = LimitedWriter::ample(alloc);
        self.sent = LimitedWriter::ample(alloc);
        let mut link = StreamLink::new(alloc, self.answers.as_slice(), &mut self.sent);
        let mut tape = ListTape {
            words: Vec::new(alloc),
        };
        served(
            alloc,
            &mut core,
            &mut link,
            &mut tape,
            &mut self.given,
            &mut self.replies,
        )
    }

    /// Lets a host answer everything that was sent.
    fn answer(&mut self, alloc: Global) -> Result<(), RowFault> {
        let (_core, server) = formatted(alloc, &self.device)?;
        let mut host = WatchedServer::over(Box::into_inner(server));
        let mut answers = LimitedWriter::ample(alloc);
        let mut sent = self.sent.text()?;
        let _ended = host_serve(alloc, &mut sent, &mut answers, &mut host);
        host.check_memory()?;
        self.answers = answers.into_text()?;
        Ok(())
    }

    /// Begins again with one more answer each time, until the session doesn't stall because it lacks one. Returns how
    /// many answers it needed, and how it ended.
    fn go_on(&mut self, alloc: Global) -> Result<(u64, Result<u64, ServeFault>), RowFault> {
        for wanted in 0..MOST_ANSWERS {
            let ended = self.serve(alloc)?;
            if ended != Err(ServeFault::Stalled) {
                return Ok((wanted, ended));
            }
            self.answer(alloc)?;
        }
        Err(RowFault::NoRow)
    }
}

/// `far_session DEVICE READER`: serves a session over a link of a reader and a writer, with its host at the other end.
/// Writes the replies, how many there were or why there were no more, and how many answers of the host the session
/// needed.
pub(crate) fn far_session(
    alloc: Global,
    words: &mut RowWords,
    page: &mut Page,
) -> Result<(), RowFault> {
    let mut far = RemoteSession {
        device: device_in(words)?,
        given: RowReader::read(alloc, words)?,
        answers: Vec::new(alloc),
        replies: LimitedWriter::ample(alloc),
        sent: LimitedWriter::ample(alloc),
    };
    let (wanted, ended) = far.go_on(alloc)?;
    page.bytes(far.replies.text()?);
    tell_end(page, ended)?;
    page.word("answers");
    page.number(wanted);
    Ok(())
}
