//! Rows of whole sessions.

use crate::ends::{LimitedWriter, RowReader};
use crate::faults::{standing, tell_end};
use crate::network::CuttableNet;
use crate::ways::AnyLink;
use oram_bucket::PlainSeal;
use oram_core::Core;
use oram_geometry::Device;
use oram_host::Server;
use oram_session::{
    ChaChaTape, Direct, Link, ListTape, ServeFault, Tape, format_device, has_no_work, serve,
};
use rows::{Page, RowFault, RowWords, device_in};
use std::alloc::Global;
use std::net::Net;

/// Formats a device over a link. Returns its core.
fn formatted_over(
    alloc: Global,
    device: Device,
    link: &mut Direct,
) -> Result<Box<Core<PlainSeal>>, RowFault> {
    match format_device(alloc, device, PlainSeal, link) {
        Ok(core) => Ok(Box::new(alloc, core)?),
        Err(_) => Err(RowFault::OutOfMemory),
    }
}

/// Formats a device on a new host. Returns its core, and the host. Both are in boxes, so that a function that has them has only
/// two plain values to drop, and is proved faster.
pub(crate) fn formatted(
    alloc: Global,
    device: &Device,
) -> Result<(Box<Core<PlainSeal>>, Box<Server>), RowFault> {
    let mut link = Direct::new(alloc, Server::new(alloc));
    let core = formatted_over(alloc, device.copy(), &mut link)?;
    Ok((core, Box::new(alloc, link.into_server())?))
}

/// Serves a session, with words from the tape.
pub(crate) fn served<L: Link, T: Tape>(
    alloc: Global,
    core: &mut Core<PlainSeal>,
    link: &mut L,
    tape: &mut T,
    given: &mut RowReader,
    sheet: &mut LimitedWriter,
) -> Result<Result<u64, ServeFault>, RowFault> {
    if !has_no_work(core) {
        return Err(RowFault::NoRow);
    }
    Ok(serve(alloc, given, sheet, core, link, tape, 0))
}

/// `session DEVICE TAPE LINK READER WRITER`: formats a device and serves a session of it. Writes the replies to the
/// frames of the reader, how many there were or why there were no more, how the core is afterwards, and the calls of
/// the link. The tape is `zeros`, or `chacha` with a key of zeros.
pub(crate) fn session<R: Net>(
    alloc: Global,
    net: &CuttableNet<R>,
    words: &mut RowWords,
    page: &mut Page,
) -> Result<(), RowFault> {
    let device = device_in(words)?;
    match words.text() {
        "zeros" => {
            let mut tape = ListTape {
                words: Vec::new(alloc),
            };
            session_with(alloc, net, &device, &mut tape, words, page)
        }
        "chacha" => {
            let mut tape = ChaChaTape {
                key: [0; 32],
                trees: device.trees(),
            };
            session_with(alloc, net, &device, &mut tape, words, page)
        }
        _ => Err(RowFault::NoRow),
    }
}

/// Does the same, reading from the words of the link on.
fn session_with<R: Net, T: Tape>(
    alloc: Global,
    net: &CuttableNet<R>,
    device: &Device,
    tape: &mut T,
    words: &mut RowWords,
    page: &mut Page,
) -> Result<(), RowFault> {
    let (mut core, server) = formatted(alloc, device)?;
    let mut link = AnyLink::read(alloc, words, net, server)?;
    session_over(alloc, &mut core, &mut link, tape, words, page)
}

/// Serves a session of a core over a link, reading from the words of the reader on.
fn session_over<R: Net, T: Tape>(
    alloc: Global,
    core: &mut Core<PlainSeal>,
    link: &mut AnyLink<'_, R>,
    tape: &mut T,
    words: &mut RowWords,
    page: &mut Page,
) -> Result<(), RowFault> {
    let mut given = RowReader::read(alloc, words)?;
    let mut sheet = LimitedWriter::read(alloc, words)?;
    let ended = served(alloc, core, link, tape, &mut given, &mut sheet)?;
    link.check_memory()?;
    page.bytes(sheet.text()?);
    tell_end(page, ended)?;
    page.word(standing(core));
    link.tell(page)
}
