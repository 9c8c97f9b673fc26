//! How long checking a path and rebuilding it take, compared with SHA-256 alone on the same bytes.
//!
//! The path is one of depth 16, of buckets with 4 slots of 4,096 bytes.

use oram_geometry::Device;
use oram_hash::{NO_DIGEST, check_path, node_digest, rebuild};
use std::alloc::{AllocError, Global};
use std::io;
use std::time::{Duration, Instant};

const DIGESTS_LEN: usize = 64;

const ROUNDS: u32 = 100;

/// Returns sealed parts of one length.
fn sealed_parts(alloc: Global, count: usize, len: usize) -> Result<Vec<Vec<u8>>, AllocError> {
    let mut parts = Vec::new(alloc);
    for _ in 0..count {
        parts.push(vec![in alloc; 7u8; len]?)?;
    }
    Ok(parts)
}

/// Returns the path of leaf 0 with these sealed parts, root first, and its root digest.
fn path_of(alloc: Global, parts: &[Vec<u8>]) -> Result<(Vec<u8>, [u8; 32]), AllocError> {
    let mut records: Vec<Vec<u8>> = Vec::new(alloc);
    let mut digest = NO_DIGEST;
    for part in parts {
        let mut record = part.as_slice().to_vec(alloc)?;
        record.extend_from_slice(&digest)?;
        record.extend_from_slice(&NO_DIGEST)?;
        digest = node_digest(&record);
        records.push(record)?;
    }
    let mut bytes = Vec::new(alloc);
    for record in records.iter().rev() {
        bytes.extend_from_slice(record)?;
    }
    Ok((bytes, digest))
}

/// Hashes each record alone with SHA-256.
fn hash_alone(bytes: &[u8], record_len: usize) -> u8 {
    bytes
        .chunks_exact(record_len)
        .fold(0, |mixed, record| mixed ^ node_digest(record)[0])
}

/// How long each part took in all rounds.
#[derive(Clone, Copy)]
struct Times {
    alone: Duration,
    check: Duration,
    rebuild: Duration,
}

fn measure(rt: &(impl Alloc<A = Global> + std::rt::Clock), device: &Device) -> io::Result<Times> {
    let alloc = rt.alloc();
    let record_len = device.record_len(0);
    let parts = sealed_parts(
        alloc,
        usize::from(device.depth(0)) + 1,
        record_len - DIGESTS_LEN,
    )?;
    let (bytes, root) = path_of(alloc, &parts)?;
    let mut times = Times {
        alone: Duration::ZERO,
        check: Duration::ZERO,
        rebuild: Duration::ZERO,
    };
    for _ in 0..ROUNDS {
        let start = Instant::now(rt)?;
        let _ = hash_alone(&bytes, record_len);
        times.alone = times.alone.saturating_add(start.elapsed(rt)?);
        let start = Instant::now(rt)?;
        let view = check_path(device, 0, 0, 0, &root, &bytes);
        times.check = times.check.saturating_add(start.elapsed(rt)?);
        if let Ok(view) = view {
            let start = Instant::now(rt)?;
            let _ = rebuild(alloc, &view, &parts)?;
            times.rebuild = times.rebuild.saturating_add(start.elapsed(rt)?);
        }
    }
    Ok(times)
}

/// Measures each part, and prints the times.
pub(crate) fn run(rt: &HostRuntime) -> io::Result<()> {
    let Ok(device) = Device::new(65_536, 4096, 4, 65_536, 1) else {
        return Ok(());
    };
    if device.trees() == 0 {
        return Ok(());
    }
    let times = measure(rt, &device)?;
    let micros = |time: Duration| time.as_micros() / u128::from(ROUNDS);
    println!(rt; "SHA-256 alone: {} us a path", micros(times.alone))?;
    println!(rt; "check_path: {} us", micros(times.check))?;
    println!(rt; "rebuild: {} us", micros(times.rebuild))
}
