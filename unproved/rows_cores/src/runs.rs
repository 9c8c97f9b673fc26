//! Rows of commands, events and reactions.

use crate::commands::{command_of, event_of, show_command};
use crate::said::{reason_of, refusal_name, show_reaction};
use oram_semantics::{Note, Reaction, Refusal};
use rows::{Page, RowFault, RowWords};
use std::alloc::Global;

/// `run copy COMMAND`: writes the copy of a command, and whether it equals the command.
fn copy(alloc: Global, words: &mut RowWords, page: &mut Page) -> Result<(), RowFault> {
    let command = command_of(alloc, words.text(), words)?;
    let copy = command.copy(alloc)?;
    show_command(&copy, page);
    page.part();
    page.flag(copy == command);
    Ok(())
}

/// `run equal COMMAND COMMAND`: writes whether the two are equal.
fn equal(alloc: Global, words: &mut RowWords, page: &mut Page) -> Result<(), RowFault> {
    let first = command_of(alloc, words.text(), words)?;
    let second = command_of(alloc, words.text(), words)?;
    page.flag(first == second);
    Ok(())
}

/// `run same EVENT EVENT`: writes whether the two are equal.
fn same(alloc: Global, words: &mut RowWords, page: &mut Page) -> Result<(), RowFault> {
    let first = event_of(alloc, words.text(), words)?;
    let second = event_of(alloc, words.text(), words)?;
    page.flag(first == second);
    Ok(())
}

/// `run only REASON`: writes a reaction that is a failure and nothing else.
fn only(alloc: Global, words: &mut RowWords, page: &mut Page) -> Result<(), RowFault> {
    let reaction = Reaction::only(alloc, Note::FailedNow(reason_of(words)?));
    show_reaction(&reaction, page);
    Ok(())
}

/// `run refusals`: writes the numbers and names of the refusals.
fn refusals(page: &mut Page) -> Result<(), RowFault> {
    for refusal in [
        Refusal::BadAddress,
        Refusal::BadLength,
        Refusal::BadWords,
        Refusal::Busy,
        Refusal::Exhausted,
        Refusal::Failed,
    ] {
        page.part();
        page.number(refusal.number());
        page.word(refusal_name(refusal));
    }
    Ok(())
}

/// Makes a call.
pub fn answer(alloc: Global, words: &mut RowWords, page: &mut Page) -> Result<(), RowFault> {
    match words.text() {
        "copy" => copy(alloc, words, page),
        "equal" => equal(alloc, words, page),
        "same" => same(alloc, words, page),
        "only" => only(alloc, words, page),
        "refusals" => refusals(page),
        _ => Err(RowFault::NoRow),
    }
}
