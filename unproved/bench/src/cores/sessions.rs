//! How long a session takes, compared with the same accesses in the core and the server alone.

use super::{ACCESSES, MOST_MESSAGES, hundredths, some_access};
use oram_bucket::PlainSeal;
use oram_bytes::Bytes;
use oram_core::{Command, Core, Event};
use oram_geometry::Device;
use oram_host::Server;
use oram_session::{ChaChaTape, Direct, serve};
use oram_wire::SessionRequest;
use rand_chacha::ChaCha20Rng;
use rand_core::SeedableRng;
use std::alloc::{AllocError, Global};
use std::io;
use std::time::{Duration, Instant};

/// Returns the request for a command.
fn request_for(alloc: Global, command: &Command) -> Result<SessionRequest, AllocError> {
    Ok(match command {
        Command::Read(address) => SessionRequest::Read { address: *address },
        Command::Write(address, bytes) => SessionRequest::Write {
            address: *address,
            bytes: Bytes::copy(alloc, bytes.as_slice())?,
        },
        Command::Discard(address) => SessionRequest::Discard { address: *address },
    })
}

/// Appends the frame of a request.
fn append_frame(alloc: Global, frames: &mut Vec<u8>, event: &Event) -> Result<(), AllocError> {
    if let Event::Submit { command, .. } = event {
        let body = request_for(alloc, command)?.encode(alloc)?;
        let Ok(length) = u32::try_from(body.len()) else {
            return Err(AllocError);
        };
        frames.extend_from_slice(&length.to_be_bytes())?;
        frames.extend_from_slice(&body)?;
    }
    Ok(())
}

/// Returns the accesses, and the frames of their requests.
fn some_accesses(alloc: Global, device: &Device) -> Result<(Vec<Event>, Vec<u8>), AllocError> {
    let mut random = ChaCha20Rng::from_seed([1; 32]);
    let mut events = Vec::new(alloc);
    let mut frames = Vec::new(alloc);
    for _ in 0..ACCESSES {
        let event = some_access(alloc, device, &mut random)?;
        append_frame(alloc, &mut frames, &event)?;
        events.push(event)?;
    }
    Ok((events, frames))
}

/// Submits a command, and lets the server answer until nothing is outstanding.
fn carry_out(
    alloc: Global,
    core: &mut Core<PlainSeal>,
    server: &mut Server,
    event: &Event,
) -> Result<(), AllocError> {
    let mut sends = core.step(alloc, event)?.sends;
    for _ in 0..MOST_MESSAGES {
        let Some(message) = sends.pop() else {
            return Ok(());
        };
        let answer = server.answer(alloc, message.as_slice())?;
        sends = core
            .step(alloc, &Event::Answer(Bytes::from_vec(answer)))?
            .sends;
    }
    Ok(())
}

/// Returns how long the accesses take in a core and a server.
fn time_alone(
    rt: &HostRuntime,
    core: &mut Core<PlainSeal>,
    server: &mut Server,
    events: &[Event],
) -> io::Result<Duration> {
    let start = Instant::now(rt)?;
    for event in events {
        carry_out(rt.alloc(), core, server, event)?;
    }
    start.elapsed(rt)
}

/// Makes the accesses in the core and the server alone, and returns how long that took.
fn alone(rt: &HostRuntime, device: Device, events: &[Event]) -> io::Result<Duration> {
    let mut server = Server::new(rt.alloc());
    let Ok(mut core) = Core::format(rt.alloc(), device, PlainSeal, &mut server) else {
        return Err(AllocError.into());
    };
    time_alone(rt, &mut core, &mut server, events)
}

/// Serves these frames over a link to a server in memory, and returns how long that took.
fn served(rt: &HostRuntime, device: Device, frames: &[u8]) -> io::Result<Duration> {
    let mut server = Server::new(rt.alloc());
    let Ok(mut core) = Core::format(rt.alloc(), device, PlainSeal, &mut server) else {
        return Err(AllocError.into());
    };
    let mut link = Direct::new(rt.alloc(), server);
    let mut tape = ChaChaTape {
        key: [7; 32],
        trees: core.device().trees(),
    };
    let mut reader = frames;
    let start = Instant::now(rt)?;
    let ended = serve(
        rt.alloc(),
        &mut reader,
        &mut io::sink(),
        &mut core,
        &mut link,
        &mut tape,
        0,
    );
    if ended != Ok(u64::from(ACCESSES)) {
        return Err(AllocError.into());
    }
    Ok(start.elapsed(rt)?)
}

/// Prints how long a session takes, compared with the same accesses alone.
pub(crate) fn measure_session(rt: &HostRuntime, name: &str, device: Device) -> io::Result<()> {
    let (events, frames) = some_accesses(rt.alloc(), &device)?;
    let alone = alone(rt, device.copy(), &events)?;
    let session = served(rt, device, &frames)?;
    let ratio = hundredths(session, alone);
    println!(rt; "{name}")?;
    println!(rt;
        "  an access in a session: {} us, through the core and the server alone: {} us",
        session.as_micros() / u128::from(ACCESSES),
        alone.as_micros() / u128::from(ACCESSES)
    )?;
    println!(rt;
        "  the session is {}.{:02} times these",
        ratio / 100,
        ratio % 100
    )
}
