//! Fills a file of some size, and opens it again.

use super::system::{close, new_store, opened, report_memory};
use super::{Shape, bodies, first_shape, format, shape_body};
use oram_redo::FilePair;
use oram_store::FileStore;
use oram_wire::{GOOD, fetch_header};
use rand_chacha::ChaCha20Rng;
use rand_core::SeedableRng;
use std::alloc::{AllocError, Global};
use std::io;
use std::time::{Duration, Instant};

/// How many paths are fetched from a file that was filled.
const FETCHES: u32 = 1_000;

/// Returns a tree of this depth, with records as long as those of the first device.
fn shape_of(depth: &str) -> Option<Shape> {
    let depth: u8 = depth.parse().ok()?;
    let first = first_shape()?;
    if depth > 24 {
        return None;
    }
    Some(Shape {
        depth,
        record_len: first.record_len,
    })
}

pub(crate) fn fill(rt: &HostRuntime, file: &str, depth: &str) -> io::Result<()> {
    let Some(shape) = shape_of(depth) else {
        return Err(io::ErrorKind::InvalidInput.into());
    };
    let start = Instant::now(rt)?;
    let mut store = new_store(rt, file)?;
    let taken = format(rt.alloc(), &mut store, shape);
    close(store)?;
    println!(rt;
        "{} records of {} bytes put and closed in {} ms",
        taken?,
        shape.record_len,
        start.elapsed(rt)?.as_millis()
    )?;
    report_memory(rt)
}

/// Makes STOREs to leaves drawn at random, and returns how many are done.
fn store_paths<F: FilePair>(
    alloc: Global,
    store: &mut FileStore<F>,
    shape: Shape,
    stores: u32,
) -> Result<u32, AllocError> {
    let mut random = ChaCha20Rng::from_seed([2; 32]);
    let mut done = 0u32;
    for _ in 0..stores {
        let (_, body) = bodies(alloc, shape, &mut random)?;
        if store.answer(alloc, &body)?.as_slice() == [GOOD].as_slice() {
            done = done.saturating_add(1);
        }
    }
    Ok(done)
}

/// Makes a new file with one tree, and stores random paths in it. It doesn't close the file, as if the process were
/// killed: the paths that were stored last are in the log.
pub(crate) fn scatter(rt: &HostRuntime, file: &str, depth: &str, stores: &str) -> io::Result<()> {
    let (Some(shape), Ok(stores)) = (shape_of(depth), stores.parse()) else {
        return Err(io::ErrorKind::InvalidInput.into());
    };
    let mut store = new_store(rt, file)?;
    let _ = store.answer(rt.alloc(), &shape_body(rt.alloc(), shape)?)?;
    let done = store_paths(rt.alloc(), &mut store, shape, stores)?;
    println!(rt;
        "{done} paths of a tree of depth {} stored, and not closed",
        shape.depth
    )
}

/// Fetches the paths of the first leaves, and returns how many are answered with records.
fn fetch_paths<F: FilePair>(alloc: Global, store: &mut FileStore<F>) -> Result<u32, AllocError> {
    let mut found = 0u32;
    for leaf in 0..FETCHES {
        if store.answer(alloc, &fetch_header(0, leaf))?.len() > 2 {
            found = found.saturating_add(1);
        }
    }
    Ok(found)
}

/// Prints how long the opening and the fetching took.
fn fetch_first<F: FilePair>(
    rt: &HostRuntime,
    store: &mut FileStore<F>,
    opening: Duration,
) -> io::Result<()> {
    println!(rt; "opened in {} ms", opening.as_millis())?;
    report_memory(rt)?;
    let start = Instant::now(rt)?;
    let found = fetch_paths(rt.alloc(), store)?;
    println!(rt;
        "{found} of {FETCHES} paths fetched in {} ms",
        start.elapsed(rt)?.as_millis()
    )?;
    report_memory(rt)
}

pub(crate) fn reopen(rt: &HostRuntime, file: &str) -> io::Result<()> {
    let start = Instant::now(rt)?;
    let mut store = opened(rt, file)?;
    let fetched = match start.elapsed(rt) {
        Ok(opening) => fetch_first(rt, &mut store, opening),
        Err(error) => Err(error),
    };
    close(store)?;
    fetched
}
