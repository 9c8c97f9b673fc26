//! How long STOREs take that arrive together, alone or between the two PUTs of a stamp.

use super::times::{Summary, Times, ratio};
use super::{Plain, RequestTaker, Shape, bodies};
use oram_bytes::Bytes;
use oram_redo::FilePair;
use oram_store::FileStore;
use oram_wire::HostRequest;
use rand_chacha::ChaCha20Rng;
use rand_core::SeedableRng;
use std::alloc::Global;
use std::fs::OpenFile;
use std::io::{Seek, Write};
use std::rt::{Clock, Files};
use std::time::Instant;
use std::{fs, io};

/// How often STOREs arrive together.
const ARRIVALS: u32 = 60;

/// The tree with the stamps of a disk, as its client makes it.
const STAMP_TREE: u8 = 254;

/// The length of a stamp's record.
const STAMP_LEN: usize = 48;

/// The messages that arrive together.
#[derive(Clone, Copy)]
struct Arrival {
    stores: u32,
    /// Whether a PUT of a stamp comes before the STOREs, and one after them, as a disk's client sends them.
    is_stamped: bool,
}

impl Arrival {
    /// Returns the STOREs among the messages.
    fn stores_among<'a>(&self, messages: &'a [Vec<u8>]) -> &'a [Vec<u8>] {
        match messages {
            [_begun, stores @ .., _done] if self.is_stamped => stores,
            stores => stores,
        }
    }

    /// Returns what the messages are, in words.
    fn name(&self) -> &'static str {
        if self.is_stamped {
            "STOREs between the PUTs of a stamp"
        } else {
            "STOREs together"
        }
    }
}

/// How long STOREs that arrived together took, in parts of one STORE, and writes of the same bytes.
#[derive(Drop)]
struct Together {
    stores: Times,
    plain: Times,
    /// The number of batches that the store made of them.
    batches: u32,
}

/// Returns the body of a PUT of a stamp.
fn stamp_body(alloc: Global, node: u32) -> io::Result<Vec<u8>> {
    let put = HostRequest::Put {
        tree: STAMP_TREE,
        node,
        bytes: Bytes::from_vec(vec![in alloc; 0u8; STAMP_LEN]?),
    };
    Ok(put.encode(alloc)?)
}

/// Gives a store the tree with the stamps, and its records.
fn format_stamps<F: FilePair>(alloc: Global, store: &mut FileStore<F>) -> io::Result<()> {
    let shape = HostRequest::Shape {
        tree: STAMP_TREE,
        depth: 1,
        record_len: STAMP_LEN as u32,
    };
    let _ = store.answer(alloc, &shape.encode(alloc)?)?;
    for node in 0..3 {
        let _ = store.answer(alloc, &stamp_body(alloc, node)?)?;
    }
    Ok(())
}

/// Returns the bodies of messages that arrive together. The STOREs are to random paths.
fn messages_of(
    alloc: Global,
    shape: Shape,
    arrival: Arrival,
    random: &mut ChaCha20Rng,
) -> io::Result<Vec<Vec<u8>>> {
    let mut messages = Vec::new(alloc);
    if arrival.is_stamped {
        messages.push(stamp_body(alloc, 0)?)?;
    }
    for _ in 0..arrival.stores {
        let (_fetch, store) = bodies(alloc, shape, random)?;
        messages.push(store)?;
    }
    if arrival.is_stamped {
        messages.push(stamp_body(alloc, 1)?)?;
    }
    Ok(messages)
}

/// Has a store answer messages that have arrived together, and returns in how many batches it did.
fn answer_all<F: FilePair>(
    alloc: Global,
    store: &mut FileStore<F>,
    messages: &[Vec<u8>],
) -> io::Result<u32> {
    let mut rest = messages;
    let mut batches = 0u32;
    for _ in 0..messages.len() {
        if rest.is_empty() {
            break;
        }
        let (count, _answer) = store.answer_group(alloc, rest)?;
        rest = &rest[count..];
        batches = batches.saturating_add(1);
    }
    Ok(batches)
}

/// Hands over messages that arrive together, and writes the bytes of the STOREs to the plain file one by one.
fn arrive<R: Clock + Alloc<A = Global>, F: FilePair, W: OpenFile + Write + Seek>(
    rt: &R,
    store: &mut FileStore<F>,
    plain: &mut Plain<W>,
    messages: &[Vec<u8>],
    arrival: Arrival,
    times: &mut Together,
) -> io::Result<()> {
    let start = Instant::now(rt)?;
    let batches = answer_all(rt.alloc(), store, messages)?;
    let each = start.elapsed(rt)?.checked_div(arrival.stores);
    times.stores.push(each.unwrap_or_default())?;
    times.batches = times.batches.saturating_add(batches);
    for message in arrival.stores_among(messages) {
        let start = Instant::now(rt)?;
        let _ = plain.take(rt.alloc(), message.as_slice())?;
        times.plain.push(start.elapsed(rt)?)?;
    }
    Ok(())
}

/// Prints how long each STORE took, and how many synced writes there were: two for each batch.
fn report(
    rt: &impl Print,
    arrival: Arrival,
    stores: Summary,
    plain: Summary,
    batches: u32,
) -> io::Result<()> {
    let mean = ratio(stores.mean, plain.mean);
    let median = ratio(stores.median, plain.median);
    println!(rt;
        "  {} {}: {} us each (median {} us), {}.{:02} times a synced write (median {}.{:02} times), {} synced writes for {}",
        arrival.stores,
        arrival.name(),
        stores.mean.as_micros(),
        stores.median.as_micros(),
        mean / 100,
        mean % 100,
        median / 100,
        median % 100,
        batches.saturating_mul(2),
        ARRIVALS.saturating_mul(arrival.stores)
    )
}

/// Prints how long STOREs took that arrived alone, in eights and in sixteens, without a stamp and with one.
pub(crate) fn measure<R: Files + Clock + Print + Alloc<A = Global>, F: FilePair>(
    rt: &R,
    shape: Shape,
    store: &mut FileStore<F>,
    plain: &str,
) -> io::Result<()>
where
    R::File: Write + Seek,
{
    let mut random = ChaCha20Rng::from_seed([2; 32]);
    let mut plain = Plain(fs::create(rt, plain)?);
    format_stamps(rt.alloc(), store)?;
    for is_stamped in [false, true] {
        for stores in [1, 8, 16] {
            let arrival = Arrival { stores, is_stamped };
            measure_arrivals(rt, shape, store, &mut plain, arrival, &mut random)?;
        }
    }
    Ok(())
}

/// Prints how long the STOREs of such messages took.
fn measure_arrivals<R: Clock + Print + Alloc<A = Global>, F: FilePair, W: OpenFile + Write + Seek>(
    rt: &R,
    shape: Shape,
    store: &mut FileStore<F>,
    plain: &mut Plain<W>,
    arrival: Arrival,
    random: &mut ChaCha20Rng,
) -> io::Result<()> {
    let mut times = Together {
        stores: Times::new(rt.alloc()),
        plain: Times::new(rt.alloc()),
        batches: 0,
    };
    for _ in 0..ARRIVALS {
        let messages = messages_of(rt.alloc(), shape, arrival, random)?;
        arrive(rt, store, plain, &messages, arrival, &mut times)?;
    }
    let (stores, written) = (times.stores.summary()?, times.plain.summary()?);
    report(rt, arrival, stores, written, times.batches)
}
