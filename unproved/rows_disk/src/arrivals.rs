//! What has arrived of what a client sent.

use oram_nbd::Arrived;
use rows::Source;
use std::io;
use std::io::Read;

/// Reads what a client sent. All of it has arrived.
#[derive(Drop)]
pub struct Sent<'a> {
    pub source: Source<'a>,
}

impl Read for Sent<'_> {
    fn read(&mut self, buf: &mut [u8]) -> io::Result<usize> {
        self.source.read(buf)
    }
}

impl Arrived for Sent<'_> {
    fn arrived(&self) -> &[u8] {
        self.source.rest()
    }
}

/// A reader that doesn't show what has arrived.
#[derive(Drop)]
pub struct Unseen<R> {
    pub reader: R,
}

impl<R: Read> Read for Unseen<R> {
    fn read(&mut self, buf: &mut [u8]) -> io::Result<usize> {
        self.reader.read(buf)
    }
}

impl<R> Arrived for Unseen<R> {
    fn arrived(&self) -> &[u8] {
        &[]
    }
}
