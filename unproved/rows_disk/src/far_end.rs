//! The far end of a connection: a host that answers each message when its answer is read.

use oram_host::Server;
use oram_sockets::WriteDuplex;
use oram_wire::{LONGEST_BODY, next_frame, put_frame};
use rows::lacks_room;
use std::alloc::Global;
use std::cell::RefCell;
use std::io;
use std::io::{ErrorKind, Read, Write};

/// The length in bytes of an answer that gives back an identity.
const IDENTITY_ANSWER_LEN: usize = 33;

/// How a host answers, honestly or not.
#[derive(Clone, Copy, Debug)]
pub enum HostBehaviour {
    Honest,
    /// Changes a byte of each path.
    AltersPaths,
    /// Changes a byte of the identity.
    AltersIdentity,
    /// Refuses the message after the first `behind` ones with this code.
    Refuses { behind: u64, code: u8 },
}

/// A host, and the bytes on their way to it and from it.
#[derive(Drop)]
pub struct FarEnd {
    alloc: Global,
    server: Server,
    sent: Vec<u8>,
    /// How many of the sent bytes the host has read.
    heard: usize,
    answer: Vec<u8>,
    /// How many bytes of the answer were read.
    taken: usize,
    /// How many messages the host has answered. After `most` answers the connection ends.
    answered: u64,
    most: u64,
    conduct: HostBehaviour,
    lacks_memory: bool,
}

impl FarEnd {
    pub fn new(alloc: Global, most: u64, conduct: HostBehaviour) -> FarEnd {
        FarEnd {
            alloc,
            server: Server::new(alloc),
            sent: Vec::new(alloc),
            heard: 0,
            answer: Vec::new(alloc),
            taken: 0,
            answered: 0,
            most,
            conduct,
            lacks_memory: false,
        }
    }

    /// Begins a new connection to the host, over which it gives `answers` answers. What was still on its way over the old
    /// one is lost.
    pub fn reopen(&mut self, answers: u64) {
        self.sent.clear();
        self.heard = 0;
        self.answer.clear();
        self.taken = 0;
        self.most = self.answered.saturating_add(answers);
    }

    /// Returns how many messages the host has answered.
    pub fn answered(&self) -> u64 {
        self.answered
    }

    /// Returns how many bytes were sent to the host.
    pub fn sent(&self) -> usize {
        self.sent.len()
    }

    /// Notes that memory ran out at this end.
    pub fn run_out(&mut self) {
        self.lacks_memory = true;
    }

    /// Returns whether memory ran out at either end.
    pub fn lacks_memory(&self) -> bool {
        self.lacks_memory
    }

    /// Returns the next message. Fails if not all of it was sent yet.
    fn next_message(&mut self) -> io::Result<Vec<u8>> {
        let mut rest = self.sent.get(self.heard..).unwrap_or(&[]);
        let Ok(Some(body)) = next_frame(self.alloc, &mut rest) else {
            return Err(io::Error::from(ErrorKind::WouldBlock));
        };
        self.heard = self.sent.len().saturating_sub(rest.len());
        Ok(body)
    }

    /// Returns an honest host's answer to a message.
    pub fn honest_answer(&mut self, body: &[u8]) -> io::Result<Vec<u8>> {
        let answer = self.server.answer(self.alloc, body)?;
        if lacks_room(&answer) {
            return Err(io::Error::from(ErrorKind::OutOfMemory));
        }
        Ok(answer)
    }

    /// Returns this host's answer to a message, honest or not.
    fn answer_to(&mut self, body: &[u8]) -> io::Result<Vec<u8>> {
        if let HostBehaviour::Refuses { behind, code } = self.conduct
            && behind == self.answered
        {
            return Ok([0x81, code].to_vec(self.alloc)?);
        }
        let mut answer = self.honest_answer(body)?;
        let alters = match self.conduct {
            HostBehaviour::AltersPaths => answer.len() > IDENTITY_ANSWER_LEN,
            HostBehaviour::AltersIdentity => answer.len() == IDENTITY_ANSWER_LEN,
            HostBehaviour::Honest | HostBehaviour::Refuses { .. } => false,
        };
        if let Some(byte) = answer.get_mut(9)
            && alters
        {
            *byte ^= 1;
        }
        Ok(answer)
    }

    /// Answers the next message, unless the connection has ended.
    fn serve(&mut self) -> io::Result<()> {
        if self.answered == self.most {
            return Ok(());
        }
        let body = self.next_message()?;
        let answer = self.answer_to(&body)?;
        self.answered = self.answered.saturating_add(1);
        self.answer.clear();
        self.taken = 0;
        if answer.len() > LONGEST_BODY || put_frame(&mut self.answer, &answer).is_err() {
            return Err(io::Error::from(ErrorKind::OutOfMemory));
        }
        Ok(())
    }

    /// Returns the unread bytes of the answer, or those of the next one. Remembers if memory ran out.
    fn ready(&mut self) -> io::Result<&[u8]> {
        if self.taken >= self.answer.len()
            && let Err(error) = self.serve()
        {
            self.lacks_memory |= error.kind() == ErrorKind::OutOfMemory;
            return Err(error);
        }
        Ok(self.answer.get(self.taken..).unwrap_or(&[]))
    }
}

/// The reading end of a connection.
#[derive(Drop)]
pub struct Answers<'a>(pub &'a RefCell<FarEnd>);

impl<'a> Read for Answers<'a> {
    fn read(&mut self, buf: &mut [u8]) -> io::Result<usize> {
        let Ok(mut far) = self.0.try_borrow_mut() else {
            return Err(io::Error::from(ErrorKind::WouldBlock));
        };
        let rest = far.ready()?;
        let count = rest.len().min(buf.len());
        buf[..count].copy_from_slice(&rest[..count]);
        far.taken = far.taken.saturating_add(count);
        Ok(count)
    }
}

/// The writing end of a connection.
#[derive(Drop)]
pub struct Messages<'a>(pub &'a RefCell<FarEnd>);

impl<'a> Write for Messages<'a> {
    fn write(&mut self, buf: &[u8]) -> io::Result<usize> {
        let Ok(mut far) = self.0.try_borrow_mut() else {
            return Err(io::Error::from(ErrorKind::WouldBlock));
        };
        if far.sent.extend_from_slice(buf).is_err() {
            far.lacks_memory = true;
            return Err(io::Error::from(ErrorKind::OutOfMemory));
        }
        Ok(buf.len())
    }

    fn flush(&mut self) -> io::Result<()> {
        Ok(())
    }
}

/// It never has to wait.
impl<'a, R: Read> WriteDuplex<R> for Messages<'a> {
    fn arrived<'r>(&self, _reader: &'r R) -> &'r [u8] {
        &[]
    }

    fn write_duplex(
        &mut self,
        _reader: &mut R,
        bytes: &[u8],
        _room: usize,
    ) -> io::Result<Option<usize>> {
        Ok(Some(self.write(bytes)?))
    }
}
