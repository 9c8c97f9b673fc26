//! Writes how cores are, and how calls end.

use oram_bucket::PlainSeal;
use oram_core::{Core, Note};
use oram_host::ServeFault;
use oram_session::LinkFault;
use rows::{Page, RowFault, RowWords};

/// Writes how many requests were carried out if all were, or why there were no more.
pub(crate) fn tell_end(page: &mut Page, ended: Result<u64, ServeFault>) -> Result<(), RowFault> {
    match ended {
        Ok(count) => {
            page.word("all");
            page.number(count);
        }
        Err(ServeFault::OutOfMemory) => return Err(RowFault::OutOfMemory),
        Err(fault) => page.fault(fault),
    }
    Ok(())
}

/// Writes the answer to a call of a link, or why there is none.
pub(crate) fn tell_outcome(
    page: &mut Page,
    outcome: Result<Vec<u8>, LinkFault>,
) -> Result<(), RowFault> {
    match outcome {
        Ok(answer) => page.bytes(&answer),
        Err(LinkFault::OutOfMemory) => return Err(RowFault::OutOfMemory),
        Err(fault) => page.fault(fault),
    }
    Ok(())
}

/// Writes the note of an event.
pub(crate) fn tell_note(page: &mut Page, note: Note) {
    page.word(match note {
        Note::Accepted(_) => "accepted",
        Note::Refused(_) => "refused",
        Note::Taken => "taken",
        Note::Stalled => "stalled",
        Note::FailedNow(_) => "failed",
        Note::Resent => "resent",
        Note::Unexpected => "unexpected",
    });
    match note {
        Note::Accepted(ticket) => page.number(ticket),
        Note::Refused(why) => page.number(why.number()),
        _ => {}
    }
}

/// Returns whether a core is idle, failed or at work.
pub(crate) fn standing(core: &Core<PlainSeal>) -> &'static str {
    if core.failure().is_some() {
        "failed"
    } else if core.is_idle() {
        "idle"
    } else {
        "at work"
    }
}

/// `names of link faults` and `names of session faults`: writes the name of each fault.
pub(crate) fn names(words: &mut RowWords, page: &mut Page) -> Result<(), RowFault> {
    match words.all() {
        "of link faults" => tell_link_faults(page),
        "of session faults" => tell_session_faults(page),
        _ => return Err(RowFault::NoRow),
    }
    Ok(())
}

fn tell_link_faults(page: &mut Page) {
    for fault in [
        LinkFault::Io,
        LinkFault::Closed,
        LinkFault::TooLong,
        LinkFault::TooLarge,
        LinkFault::OutOfMemory,
    ] {
        page.fault(fault);
    }
}

fn tell_session_faults(page: &mut Page) {
    for fault in [
        ServeFault::Read,
        ServeFault::Write,
        ServeFault::Frame,
        ServeFault::Truncated,
        ServeFault::Stalled,
        ServeFault::OutOfMemory,
    ] {
        page.fault(fault);
    }
}
