//! How long a bucket server in a file takes, compared with the one in memory and with a write of the same bytes.
//!
//! `run FILE` makes the first device of `bench core` in a new file, one tree of blocks of 4,096 bytes. It prints how
//! many FETCHes and STOREs a second the store answers, how many the server in memory answers, and how many synced
//! writes of the same bytes there are a second, all in one run: each with its mean, its median and the longest. Then it prints how
//! long each STORE takes if it arrives alone, with seven others or with fifteen others, and how often the files are synced for it; and
//! the same for STOREs between the two PUTs of a stamp, as the client of a disk sends them.
//!
//! `fill FILE DEPTH` makes a whole tree of that depth of the same records in a new file (depth 16: 2.2 GB). `open FILE`
//! opens what `fill` left, and fetches the paths of its first 1,000 leaves. Each prints the most memory that the
//! process had.
//!
//! `scatter FILE DEPTH STORES` makes a new file with one tree and stores that number of random paths in it. It doesn't
//! close the file, so the next `open` finds the last paths in the log. At depth 24 the file is 550 GB long, but takes
//! little room on the disk.

mod filled_store;
mod groups;
mod system;
mod times;

pub(crate) use filled_store::{fill, reopen, scatter};
use oram_bytes::Bytes;
use oram_geometry::Device;
use oram_host::Server;
use oram_redo::FilePair;
use oram_store::FileStore;
use oram_wire::{GOOD, HostRequest};
use rand_chacha::ChaCha20Rng;
use rand_core::{Rng, SeedableRng};
use std::alloc::{AllocError, Global};
use std::fs::OpenFile;
use std::io::{Seek, Write};
use std::rt::{Clock, Files};
use std::time::{Duration, Instant};
use std::{fs, io};
use system::{close, new_store, report_memory};
use times::{Summary, Times, ratio};

/// Enough accesses for their STOREs to fill the log, so that it is emptied meanwhile.
const ACCESSES: u32 = 600;

/// A tree of records.
#[derive(Clone, Copy)]
pub(crate) struct Shape {
    pub(crate) depth: u8,
    pub(crate) record_len: u32,
}

/// Something that takes the bodies of requests.
pub(crate) trait RequestTaker {
    fn take(&mut self, alloc: Global, body: &[u8]) -> io::Result<Vec<u8>>;
}

impl RequestTaker for Server {
    fn take(&mut self, alloc: Global, body: &[u8]) -> io::Result<Vec<u8>> {
        Ok(self.answer(alloc, body)?)
    }
}

impl<F: FilePair> RequestTaker for FileStore<F> {
    fn take(&mut self, alloc: Global, body: &[u8]) -> io::Result<Vec<u8>> {
        Ok(self.answer(alloc, body)?)
    }
}

/// A file whose first bytes are overwritten by each body, and synced.
#[derive(Drop)]
struct Plain<W>(W);

impl<W: OpenFile + Write + Seek> RequestTaker for Plain<W> {
    fn take(&mut self, alloc: Global, body: &[u8]) -> io::Result<Vec<u8>> {
        self.0.rewind()?;
        self.0.write_all(body)?;
        self.0.sync_all()?;
        Ok(Vec::new(alloc))
    }
}

/// How long the FETCHes and the STOREs took.
#[derive(Drop)]
struct Accesses {
    fetches: Times,
    stores: Times,
}

impl Accesses {
    fn new(alloc: Global) -> Accesses {
        Accesses {
            fetches: Times::new(alloc),
            stores: Times::new(alloc),
        }
    }
}

/// The times of the same accesses to the store, to the server in memory and to the plain file.
#[derive(Drop)]
struct Compared {
    file: Accesses,
    memory: Accesses,
    plain: Accesses,
}

impl Compared {
    fn new(alloc: Global) -> Compared {
        Compared {
            file: Accesses::new(alloc),
            memory: Accesses::new(alloc),
            plain: Accesses::new(alloc),
        }
    }
}

/// Hands over a body, and notes how long that takes.
fn timed<T: RequestTaker>(
    rt: &(impl Alloc<A = Global> + Clock),
    taker: &mut T,
    body: &[u8],
    times: &mut Times,
) -> io::Result<Vec<u8>> {
    let start = Instant::now(rt)?;
    let answer = taker.take(rt.alloc(), body)?;
    times.push(start.elapsed(rt)?)?;
    Ok(answer)
}

pub(crate) fn shape_body(alloc: Global, shape: Shape) -> Result<Vec<u8>, AllocError> {
    HostRequest::Shape {
        tree: 0,
        depth: shape.depth,
        record_len: shape.record_len,
    }
    .encode(alloc)
}

/// Returns the body of a PUT of bytes that are all the same.
fn put_body(alloc: Global, shape: Shape, node: u32) -> Result<Vec<u8>, AllocError> {
    let record_len = shape.record_len as usize;
    HostRequest::Put {
        tree: 0,
        node,
        bytes: Bytes::from_vec(vec![in alloc; node.to_be_bytes()[3]; record_len]?),
    }
    .encode(alloc)
}

/// Gives a tree its shape and all its records. Returns how many records were taken.
pub(crate) fn format<T: RequestTaker>(
    alloc: Global,
    taker: &mut T,
    shape: Shape,
) -> io::Result<u32> {
    let _ = taker.take(alloc, shape_body(alloc, shape)?.as_slice())?;
    let mut taken = 0u32;
    for node in 0..(2u32 << shape.depth).saturating_sub(1) {
        let answer = taker.take(alloc, put_body(alloc, shape, node)?.as_slice())?;
        if answer.as_slice() == [GOOD].as_slice() {
            taken = taken.saturating_add(1);
        }
    }
    Ok(taken)
}

/// Returns a FETCH of a leaf, and a STORE of bytes drawn at random to it.
pub(crate) fn bodies(
    alloc: Global,
    shape: Shape,
    random: &mut ChaCha20Rng,
) -> Result<(Vec<u8>, Vec<u8>), AllocError> {
    let leaf = random.next_u32() % (1u32 << shape.depth).max(1);
    let fetch = HostRequest::Fetch { tree: 0, leaf }.encode(alloc)?;
    let length = usize::from(shape.depth)
        .saturating_add(1)
        .saturating_mul(shape.record_len as usize);
    let mut records = vec![in alloc; 0u8; length]?;
    random.fill_bytes(records.as_mut_slice());
    let store = HostRequest::Store {
        tree: 0,
        leaf,
        records: Bytes::from_vec(records),
    };
    Ok((fetch, store.encode(alloc)?))
}

/// Hands each access to the store, the server and the plain file in turn. Returns how many answers differ.
fn compare<F: FilePair, W: OpenFile + Write + Seek>(
    rt: &(impl Alloc<A = Global> + Clock),
    shape: Shape,
    store: &mut FileStore<F>,
    server: &mut Server,
    plain: &mut Plain<W>,
    times: &mut Compared,
) -> io::Result<u32> {
    let mut random = ChaCha20Rng::from_seed([1; 32]);
    let mut differing = 0u32;
    for _ in 0..ACCESSES {
        let (fetch, put) = bodies(rt.alloc(), shape, &mut random)?;
        let from_file = timed(rt, store, fetch.as_slice(), &mut times.file.fetches)?;
        let from_memory = timed(rt, server, fetch.as_slice(), &mut times.memory.fetches)?;
        let kept = timed(rt, store, put.as_slice(), &mut times.file.stores)?;
        let held = timed(rt, server, put.as_slice(), &mut times.memory.stores)?;
        let _ = timed(rt, plain, put.as_slice(), &mut times.plain.stores)?;
        if from_file != from_memory || kept != held {
            differing = differing.saturating_add(1);
        }
    }
    Ok(differing)
}

/// Prints how long calls took.
fn report_times(rt: &impl Print, name: &str, times: Summary) -> io::Result<()> {
    let mean = times.mean.as_micros();
    println!(rt;
        "  {name}: {} a second, {mean} us each (median {} us, longest {} us)",
        1_000_000 / mean.max(1),
        times.median.as_micros(),
        times.longest.as_micros()
    )
}

/// Prints how many times as long as a synced write a STORE to the file took.
fn report_ratio(rt: &impl Print, file: Summary, plain: Summary) -> io::Result<()> {
    let mean = ratio(file.mean, plain.mean);
    let median = ratio(file.median, plain.median);
    println!(rt;
        "  a STORE to the file is {}.{:02} times a synced write (median {}.{:02} times)",
        mean / 100,
        mean % 100,
        median / 100,
        median % 100
    )
}

fn report(rt: &impl Print, times: &mut Compared, differing: u32) -> io::Result<()> {
    report_times(rt, "FETCHes from the file", times.file.fetches.summary()?)?;
    report_times(rt, "FETCHes from memory", times.memory.fetches.summary()?)?;
    let file = times.file.stores.summary()?;
    let plain = times.plain.stores.summary()?;
    report_times(rt, "STOREs to the file", file)?;
    report_times(rt, "STOREs to memory", times.memory.stores.summary()?)?;
    report_times(rt, "writes of a STORE's bytes, synced", plain)?;
    report_ratio(rt, file, plain)?;
    println!(rt; "  answers that differ: {differing}")
}

/// Formats a tree in a new file, and prints how long that took.
fn measure_puts<F: FilePair>(
    rt: &(impl Alloc<A = Global> + Clock + Print),
    shape: Shape,
    store: &mut FileStore<F>,
) -> io::Result<()> {
    let start = Instant::now(rt)?;
    let taken = format(rt.alloc(), store, shape)?;
    if store.commit_puts().is_err() {
        return Err(io::ErrorKind::Other.into());
    }
    let formatting = start.elapsed(rt)?;
    println!(rt;
        "a tree of depth {}, {taken} records of {} bytes, put in {} ms",
        shape.depth,
        shape.record_len,
        formatting.as_millis()
    )
}

/// Makes accesses to a store, to a server in memory and to the new file `plain`, and prints how long they took.
fn measure_accesses<R: Files + Clock + Print + Alloc<A = Global>, F: FilePair>(
    rt: &R,
    shape: Shape,
    store: &mut FileStore<F>,
    server: &mut Server,
    plain: &str,
) -> io::Result<()>
where
    R::File: Write + Seek,
{
    let mut plain = Plain(fs::create(rt, plain)?);
    let mut times = Compared::new(rt.alloc());
    let differing = compare(rt, shape, store, server, &mut plain, &mut times)?;
    report(rt, &mut times, differing)
}

/// Formats a tree in a new file and in memory, and makes accesses to both.
fn measure_shape<R: Files + Clock + Print + Alloc<A = Global>, F: FilePair>(
    rt: &R,
    shape: Shape,
    store: &mut FileStore<F>,
    file: &str,
) -> io::Result<()>
where
    R::File: Write + Seek,
{
    measure_puts(rt, shape, store)?;
    let mut server = Server::new(rt.alloc());
    let _ = format(rt.alloc(), &mut server, shape)?;
    let plain = format!(in rt.alloc(); "{file}-plain")?;
    measure_accesses(rt, shape, store, &mut server, plain.as_str())?;
    groups::measure(rt, shape, store, plain.as_str())?;
    fs::remove_file(rt, plain.as_str())
}

/// Returns the shape of the tree of the first device of `bench core`.
pub(crate) fn first_shape() -> Option<Shape> {
    let device = Device::new(4_096, 4_096, 4, 4_096, 1 << 40).ok()?;
    Some(Shape {
        depth: device.depth(0),
        record_len: device.record_len(0) as u32,
    })
}

pub(crate) fn measure(rt: &HostRuntime, file: &str) -> io::Result<()> {
    let Some(shape) = first_shape() else {
        return Ok(());
    };
    let mut store = new_store(rt, file)?;
    let measured = measure_shape(rt, shape, &mut store, file);
    close(store)?;
    measured?;
    report_memory(rt)
}
