//! A network whose newest connection can be cut off.

use std::cell::Cell;
use std::io;
use std::io::ErrorKind;
use std::net::{Net, OpenStream, Shutdown, SocketAddr};

/// A network that goes through another one, with a second handle of the newest connection.
#[derive(Drop)]
pub(crate) struct CuttableNet<R: Net> {
    rt: R,
    newest: Cell<Option<R::Stream>>,
}

impl<R: Net> CuttableNet<R> {
    pub(crate) fn new(rt: R) -> CuttableNet<R> {
        CuttableNet {
            rt,
            newest: Cell::new(None),
        }
    }

    /// Shuts down the newest connection in both directions.
    pub(crate) fn cut(&self) -> io::Result<()> {
        match self.newest.take() {
            Some(stream) => stream.shutdown(Shutdown::Both),
            None => Err(io::Error::from(ErrorKind::NotConnected)),
        }
    }
}

impl<R: Net> Net for CuttableNet<R> {
    type Stream = R::Stream;

    type Listener = R::Listener;

    fn bind(&self, addr: SocketAddr) -> io::Result<R::Listener> {
        self.rt.bind(addr)
    }

    fn connect(&self, addr: SocketAddr) -> io::Result<R::Stream> {
        let stream = self.rt.connect(addr)?;
        let _before = self.newest.replace(Some(stream.try_clone()?));
        Ok(stream)
    }
}
