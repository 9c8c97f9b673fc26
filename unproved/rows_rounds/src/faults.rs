//! The names of the faults of rounds.

use oram_rounds::{KeepError, KeptCoreFault, RoundFault};
use oram_state::StateFault;
use rows::{Page, RowFault, RowWords};

/// `names of keeping faults`: writes the name of each fault.
pub(crate) fn names(words: &mut RowWords, page: &mut Page) -> Result<(), RowFault> {
    if words.all() != "of keeping faults" {
        return Err(RowFault::NoRow);
    }
    tell_round_faults(page);
    page.fault(KeepError);
    tell_file_faults(page);
    Ok(())
}

fn tell_round_faults(page: &mut Page) {
    for fault in [
        RoundFault::Stalled,
        RoundFault::NotKept,
        RoundFault::OutOfMemory,
    ] {
        page.fault(fault);
    }
}

fn tell_file_faults(page: &mut Page) {
    for fault in [
        KeptCoreFault::Torn,
        KeptCoreFault::Core(StateFault::Content),
        KeptCoreFault::OutOfMemory,
    ] {
        page.fault(fault);
    }
}
