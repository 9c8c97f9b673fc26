//! CHECKPOINT and SUMMARY, and the answer to SUMMARY.

use oram_checkpoints::{
    CheckpointRequest, LONGEST_SUMMARY, SUMMARY_BODY, checkpoint_header, split_summary,
    summary_head,
};
use oram_wire::WireFault;
use rows::{Page, RowFault, RowWords};
use std::alloc::Global;

/// Ends a row that reads a body and writes what was read. A fault is written instead, unless memory ran out.
pub fn end_reading(page: &mut Page, read: Result<(), WireFault>) -> Result<(), RowFault> {
    match read {
        Ok(()) => {}
        Err(WireFault::OutOfMemory) => return Err(RowFault::OutOfMemory),
        Err(fault) => page.show(&fault),
    }
    Ok(())
}

/// `checkpoint write NUMBER SUMMARY`: writes the body of a CHECKPOINT.
fn write(alloc: Global, words: &mut RowWords, page: &mut Page) -> Result<(), RowFault> {
    let number = words.number();
    let summary = words.bytes(alloc);
    if summary.len() > LONGEST_SUMMARY {
        return Err(RowFault::NoRow);
    }
    let request = CheckpointRequest::Checkpoint {
        number,
        summary: &summary,
    };
    page.bytes(&request.encode(alloc)?);
    Ok(())
}

/// `checkpoint ask`: writes the body of SUMMARY, as a constant and as it is encoded.
fn ask(alloc: Global, page: &mut Page) -> Result<(), RowFault> {
    page.bytes(&SUMMARY_BODY);
    page.bytes(&CheckpointRequest::Summary.encode(alloc)?);
    Ok(())
}

/// `checkpoint heads NUMBER`: writes the beginning of a CHECKPOINT with this number, and that of the answer to SUMMARY.
fn heads(words: &mut RowWords, page: &mut Page) {
    let number = words.number();
    page.bytes(&checkpoint_header(number));
    page.bytes(&summary_head(number));
}

/// `checkpoint read BODY`: reads a body as a request, and writes it.
fn read(body: &[u8], page: &mut Page) -> Result<(), WireFault> {
    match CheckpointRequest::decode(body)? {
        CheckpointRequest::Checkpoint { number, summary } => {
            page.word("checkpoint");
            page.number(number);
            page.bytes(summary);
        }
        CheckpointRequest::Summary => page.word("summary"),
    }
    Ok(())
}

/// `checkpoint split PAYLOAD`: writes the number and the summary in the payload of an answer to SUMMARY, or that it is no such payload.
fn split(alloc: Global, words: &mut RowWords, page: &mut Page) {
    let payload = words.bytes(alloc);
    match split_summary(&payload) {
        Some((number, summary)) => {
            page.number(number);
            page.bytes(summary);
        }
        None => page.word("none"),
    }
}

/// Answers a row about CHECKPOINT and SUMMARY.
pub fn answer(
    alloc: Global,
    name: &str,
    words: &mut RowWords,
    page: &mut Page,
) -> Result<(), RowFault> {
    match name {
        "write" => return write(alloc, words, page),
        "ask" => return ask(alloc, page),
        "heads" => heads(words, page),
        "read" => {
            let body = words.bytes(alloc);
            let read = read(&body, page);
            return end_reading(page, read);
        }
        "split" => split(alloc, words, page),
        _ => return Err(RowFault::NoRow),
    }
    Ok(())
}
