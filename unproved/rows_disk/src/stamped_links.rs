//! A link that puts its stamps at a host, over a network in memory.

use crate::batches::{NoWatch, lengths, take_one_by_one};
use crate::far_end::{Answers, FarEnd, HostBehaviour, Messages};
use oram_client::{
    Identity, IntroductionFault, ReconnectLink, StreamBatches, TcpDialer, introduce,
};
use oram_geometry::Device;
use oram_stamps::{Known, StampKey};
use rows::{Page, RowFault, RowWords};
use std::alloc::Global;
use std::cell::RefCell;
use std::io;
use std::io::{ErrorKind, Read, Write};
use std::net::{Net, OpenListener, OpenStream, SocketAddr};
use std::os::fd::{AsRawFd, RawFd};
use std::rt::Clock;
use std::time::Duration;

const IDENTITY: Identity = Identity([0x1d; 32]);

const STAMPS: StampKey = StampKey([0x5e; 32]);

/// More answers than a row needs.
const MANY: u64 = 1_000;

/// A network that has one host. Its clock stands still.
#[derive(Clone, Copy)]
struct Network<'a>(&'a RefCell<FarEnd>);

/// A connection to that host.
#[derive(Drop)]
struct Wire<'a>(&'a RefCell<FarEnd>);

impl<'a> Read for Wire<'a> {
    fn read(&mut self, buf: &mut [u8]) -> io::Result<usize> {
        Answers(self.0).read(buf)
    }
}

impl<'a> Write for Wire<'a> {
    fn write(&mut self, buf: &[u8]) -> io::Result<usize> {
        Messages(self.0).write(buf)
    }

    fn flush(&mut self) -> io::Result<()> {
        Ok(())
    }
}

impl<'a> AsRawFd for Wire<'a> {
    fn as_raw_fd(&self) -> RawFd {
        -1
    }
}

impl<'a> OpenStream for Wire<'a> {
    fn set_nodelay(&self, _nodelay: bool) -> io::Result<()> {
        Ok(())
    }

    fn set_nonblocking(&self, _nonblocking: bool) -> io::Result<()> {
        Ok(())
    }

    fn set_read_timeout(&self, _dur: Option<Duration>) -> io::Result<()> {
        Ok(())
    }

    fn set_write_timeout(&self, _dur: Option<Duration>) -> io::Result<()> {
        Ok(())
    }

    fn try_clone(&self) -> io::Result<Wire<'a>> {
        Ok(Wire(self.0))
    }
}

/// Nobody connects to this network.
#[derive(Drop)]
struct NoListener<'a>(&'a RefCell<FarEnd>);

impl<'a> AsRawFd for NoListener<'a> {
    fn as_raw_fd(&self) -> RawFd {
        -1
    }
}

impl<'a> OpenListener for NoListener<'a> {
    type Stream = Wire<'a>;

    fn accept(&self) -> io::Result<(Wire<'a>, SocketAddr)> {
        Err(io::Error::from(ErrorKind::Unsupported))
    }
}

impl<'a> Net for Network<'a> {
    type Stream = Wire<'a>;

    type Listener = NoListener<'a>;

    fn bind(&self, _addr: SocketAddr) -> io::Result<NoListener<'a>> {
        Err(io::Error::from(ErrorKind::Unsupported))
    }

    fn connect(&self, _addr: SocketAddr) -> io::Result<Wire<'a>> {
        match self.0.try_borrow_mut() {
            Ok(mut far) => {
                far.reopen(MANY);
                Ok(Wire(self.0))
            }
            Err(_) => Err(io::Error::from(ErrorKind::WouldBlock)),
        }
    }

    fn connect_timeout(&self, addr: SocketAddr, _timeout: Duration) -> io::Result<Wire<'a>> {
        self.connect(addr)
    }
}

impl<'a> Clock for Network<'a> {
    fn monotonic(&self) -> io::Result<Duration> {
        Ok(Duration::from_millis(0))
    }

    fn since_1970(&self) -> io::Result<Duration> {
        Ok(Duration::from_millis(0))
    }
}

/// Introduces the disk of one block to the host.
fn introduced(alloc: Global, far: &RefCell<FarEnd>) -> Result<(), RowFault> {
    let (Ok(device), Some(lengths)) = (Device::new(1, 16, 1, 1, 1), lengths()) else {
        return Err(RowFault::NoRow);
    };
    let mut line = StreamBatches::new(alloc, Answers(far), Messages(far), lengths);
    match introduce(alloc, &device, 0, &IDENTITY, &STAMPS, &mut line) {
        Ok(()) => Ok(()),
        Err(IntroductionFault::OutOfMemory) => Err(RowFault::OutOfMemory),
        Err(_) => Err(RowFault::NoRow),
    }
}

/// Reaches the host, and then takes the answers to a batch of these messages one by one, twice.
fn twice(
    alloc: Global,
    far: &RefCell<FarEnd>,
    words: &mut RowWords,
    page: &mut Page,
) -> Result<(), RowFault> {
    let Some(lengths) = lengths() else {
        return Err(RowFault::NoRow);
    };
    let place = "127.0.0.1:1".to_string(alloc)?;
    let dialer = TcpDialer::new(
        Network(far),
        place,
        IDENTITY.0,
        STAMPS,
        Known::fresh(alloc)?,
        lengths,
    );
    let mut link = ReconnectLink::new(alloc, dialer, NoWatch, 1);
    match link.reach(alloc) {
        Ok(()) => page.word("reached"),
        Err(trouble) if trouble.lacks_memory() => return Err(RowFault::OutOfMemory),
        Err(trouble) => page.show(&trouble),
    }
    let messages = words.bodies(alloc);
    for _ in 0..2 {
        let mut copies = Vec::new(alloc);
        for message in &messages {
            if copies.push(message.to_vec(alloc)?).is_err() {
                return Err(RowFault::OutOfMemory);
            }
        }
        take_one_by_one(alloc, &mut link, copies, page)?;
    }
    match link.trouble() {
        Some(trouble) => page.show(&trouble),
        None => page.word("usable"),
    }
    Ok(())
}

/// `link stamped BEHIND CODE MESSAGES`: a disk of one block is introduced to a host, which refuses with this code the message after the first `BEHIND` ones.
/// A link that puts its stamps there reaches the host; then the answers to a batch of these messages are taken one by one, twice. A batch of more
/// than one message goes between its stamps. Writes the answers, whether the link is still usable, and how many messages the host has answered.
pub fn stamped(alloc: Global, words: &mut RowWords, page: &mut Page) -> Result<(), RowFault> {
    let conduct = HostBehaviour::Refuses {
        behind: words.number(),
        code: words.byte(),
    };
    let far = RefCell::new(FarEnd::new(alloc, MANY, conduct));
    let taken = match introduced(alloc, &far) {
        Ok(()) => twice(alloc, &far, words, page),
        Err(fault) => Err(fault),
    };
    let Ok(far) = far.try_borrow() else {
        return Err(RowFault::NoRow);
    };
    if far.lacks_memory() {
        return Err(RowFault::OutOfMemory);
    }
    taken?;
    page.word("answered");
    page.number(far.answered());
    Ok(())
}
