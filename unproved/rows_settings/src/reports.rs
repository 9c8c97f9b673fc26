//! Reports about a formatting and about a disk.

use oram_core::Reason;
use oram_settings::{LongWork, Meter, Status, failure_text, progress_text, report, report_json};
use rows::{Page, RowFault, RowWords};
use std::alloc::Global;

/// `progress WORK DONE OF MILLISECONDS`: writes the line of work that has come this far, which is `format`, `check` or `export`.
pub fn progress(alloc: Global, words: &mut RowWords, page: &mut Page) -> Result<(), RowFault> {
    let work = match words.text() {
        "format" => LongWork::Formatting,
        "check" => LongWork::Checking,
        "export" => LongWork::Exporting,
        _ => return Err(RowFault::NoRow),
    };
    let done = words.number();
    let of = words.number();
    let milliseconds = words.number();
    let text = progress_text(alloc, work, done, of, milliseconds)?;
    page.lines(text.as_str());
    Ok(())
}

/// `meter STEP`: begins a meter that is due at each such step in a hundred.
pub fn meter(
    meter: &mut Option<Meter>,
    words: &mut RowWords,
    page: &mut Page,
) -> Result<(), RowFault> {
    *meter = Some(Meter::new(words.number()));
    page.word("begun");
    Ok(())
}

/// `due PERCENT`: writes whether the meter is due.
pub fn due(
    meter: Option<&mut Meter>,
    words: &mut RowWords,
    page: &mut Page,
) -> Result<(), RowFault> {
    let Some(meter) = meter else {
        return Err(RowFault::NoRow);
    };
    page.flag(meter.is_due(words.number()));
    Ok(())
}

/// Reads BLOCKS BLOCK_BYTES TREES STASH NEAR ACCESSES LIFETIME WAITING FAILURE .., where the failure is `sound`, `malformed`,
/// `tampered TREE LEVEL` or `refused CODE`.
fn status(words: &mut RowWords) -> Result<Status, RowFault> {
    Ok(Status {
        blocks: words.number(),
        block_bytes: words.number(),
        trees: words.byte(),
        stash: words.number(),
        near: words.number(),
        accesses: words.number(),
        lifetime: words.number(),
        waiting: words.number(),
        failure: failure(words)?,
    })
}

/// `report STATUS`: writes the report of a disk.
pub fn disk_report(alloc: Global, words: &mut RowWords, page: &mut Page) -> Result<(), RowFault> {
    let status = status(words)?;
    let text = report(alloc, &status)?;
    page.lines(text.as_str());
    Ok(())
}

/// `json USED STATUS`: writes the report of a disk in JSON. `USED` is `used` or `unused`.
pub fn json(alloc: Global, words: &mut RowWords, page: &mut Page) -> Result<(), RowFault> {
    let is_used = words.text() == "used";
    let status = status(words)?;
    let why = failure_text(alloc, status.failure)?;
    let failure = status.failure.map(|_| why.as_str());
    let text = report_json(alloc, &status, is_used, failure)?;
    page.lines(text.as_str());
    Ok(())
}

fn failure(words: &mut RowWords) -> Result<Option<Reason>, RowFault> {
    match words.text() {
        "sound" => Ok(None),
        "malformed" => Ok(Some(Reason::Malformed)),
        "tampered" => Ok(Some(Reason::Tampered(words.byte(), words.byte()))),
        "refused" => Ok(Some(Reason::HostRefused(words.byte()))),
        _ => Err(RowFault::NoRow),
    }
}
