//! What the host and the sessions have seen of a core.

use oram_bucket::Sealer;
use oram_bytes::Bytes;
use oram_core::{Run, run};
use oram_geometry::Device;
use oram_semantics::{Event, Reaction};
use rows::{Page, RowFault};
use std::alloc::Global;

/// The messages of the formatting, and a reaction for each event.
#[derive(Drop)]
pub struct Seen {
    pub format: Vec<Vec<u8>>,
    pub reactions: Vec<Reaction>,
}

/// Returns what the host sees of a message: its head and its length.
fn head(message: &Bytes) -> (&[u8], usize) {
    (
        message.as_slice().get(..6).unwrap_or_default(),
        message.len(),
    )
}

/// Returns whether the host can't tell two reactions apart.
fn looks_alike(one: &Reaction, other: &Reaction) -> bool {
    one.note == other.note
        && one.replies.len() == other.replies.len()
        && one.sends.len() == other.sends.len()
        && one
            .sends
            .iter()
            .zip(&other.sends)
            .all(|(a, b)| head(a) == head(b))
}

/// Returns whether two reactions are equal.
fn is_equal(one: &Reaction, other: &Reaction) -> bool {
    one.note == other.note && one.replies == other.replies && one.sends == other.sends
}

/// Writes whether two formattings are alike, and how many of `count` events are.
fn show(formats_alike: bool, alike: usize, count: usize, page: &mut Page) {
    page.word(if formats_alike {
        "format alike"
    } else {
        "format differs"
    });
    page.part();
    page.number(alike);
    page.word("of");
    page.number(count);
    page.word("events alike");
}

/// Writes whether two cores look the same to the host.
pub fn show_alike(one: &Seen, other: &Seen, page: &mut Page) {
    let pairs = one.reactions.iter().zip(&other.reactions);
    let alike = pairs.filter(|(a, b)| looks_alike(a, b)).count();
    let count = one.reactions.len().max(other.reactions.len());
    show(one.format == other.format, alike, count, page);
}

/// Makes one run of these events. Returns the messages of the formatting and the reactions, and fails if memory ran
/// out.
fn run_of<S: Sealer>(
    alloc: Global,
    device: Device,
    sealer: S,
    events: &[Event],
) -> Result<Seen, RowFault> {
    let Run {
        format,
        reactions,
        out_of_memory,
    } = run(alloc, device, sealer, events);
    if out_of_memory {
        return Err(RowFault::OutOfMemory);
    }
    Ok(Seen { format, reactions })
}

/// Makes one run of these events, and writes whether it is what was seen of them.
pub fn show_run<S: Sealer>(
    alloc: Global,
    device: Device,
    sealer: S,
    events: &[Event],
    seen: &Seen,
    page: &mut Page,
) -> Result<(), RowFault> {
    let Seen { format, reactions } = run_of(alloc, device, sealer, events)?;
    let pairs = reactions.iter().zip(&seen.reactions);
    let alike = pairs.filter(|(a, b)| is_equal(a, b)).count();
    show(format == seen.format, alike, reactions.len(), page);
    Ok(())
}
