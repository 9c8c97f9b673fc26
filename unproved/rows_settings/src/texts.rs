//! Sizes, names, command lines, and texts that are written.

use oram_cli::{put_between, put_number};
use oram_settings::{
    NoRequest, Subcommand, place_beside, read_command_line, read_size, relative_to,
};
use rows::{Page, RowFault, RowWords};
use std::alloc::Global;

/// `size TEXT`: writes how many bytes a size means.
pub fn size(words: &mut RowWords, page: &mut Page) -> Result<(), RowFault> {
    match read_size(words.all()) {
        Some(bytes) => page.number(bytes),
        None => page.word("none"),
    }
    Ok(())
}

/// `relative_to FILE NAME`: writes the path of the file that is called `NAME` in the folder of `FILE`.
pub fn beside_file(alloc: Global, words: &mut RowWords, page: &mut Page) -> Result<(), RowFault> {
    let file = words.text();
    let name = words.text();
    let found = relative_to(alloc, file, name)?;
    page.word(found.as_str());
    Ok(())
}

/// `place FILE PLACE`: writes a place that the settings in `FILE` name, as seen from the working directory.
pub fn place(alloc: Global, words: &mut RowWords, page: &mut Page) -> Result<(), RowFault> {
    let file = words.text();
    let place = words.text();
    let seen = place_beside(alloc, file, place)?;
    page.word(seen.as_str());
    Ok(())
}

/// `words WORD ..`: writes what a command line asks `oramdisk` for.
pub fn command_line(alloc: Global, words: &mut RowWords, page: &mut Page) -> Result<(), RowFault> {
    put_request(&read_command_line(alloc, &words.texts(alloc)), page)
}

fn put_request(read: &Result<Subcommand, NoRequest>, page: &mut Page) -> Result<(), RowFault> {
    match read {
        Ok(subcommand) => put_subcommand(subcommand, page),
        Err(NoRequest::Help(_)) => page.word("help"),
        Err(NoRequest::Mistake(_)) => page.word("bad"),
        Err(NoRequest::OutOfMemory) => return Err(RowFault::OutOfMemory),
    }
    Ok(())
}

fn put_subcommand(subcommand: &Subcommand, page: &mut Page) {
    match subcommand {
        Subcommand::Host { settings, is_new } => {
            put_both(page, "host", settings);
            page.word(if *is_new { "new" } else { "old" });
        }
        Subcommand::Format(name) => put_both(page, "format", name),
        Subcommand::Serve(name) => put_both(page, "serve", name),
        Subcommand::Status { settings, is_json } => {
            put_both(page, "status", settings);
            page.word(if *is_json { "json" } else { "lines" });
        }
        Subcommand::Retry(name) => put_both(page, "retry", name),
        Subcommand::Check {
            settings,
            is_salvage,
        } => {
            put_both(page, "check", settings);
            page.word(if *is_salvage { "salvage" } else { "all" });
        }
        Subcommand::Export {
            settings,
            image,
            is_salvage,
        } => {
            put_both(page, "export", settings);
            page.word(image.as_str());
            page.word(if *is_salvage { "salvage" } else { "all" });
        }
        Subcommand::New { folder, size } => {
            put_both(page, "new", folder);
            page.word(size.as_str());
        }
    }
}

fn put_both(page: &mut Page, role: &str, name: &String) {
    page.word(role);
    page.word(name.as_str());
}

/// Writes the bytes that a writer holds while it has room for `left` more, and whether they are the whole text.
fn show_held(held: &[u8], left: usize, is_whole: bool, page: &mut Page) {
    let len = held.len().saturating_sub(left);
    page.bytes(held.get(..len).unwrap_or(&[]));
    page.word(if is_whole { "all" } else { "a beginning" });
}

/// `write ROOM FRONT TEXT REST`: writes the three texts to a writer with `ROOM` bytes. Writes the bytes that the writer
/// then holds, and whether these are all.
pub fn write(alloc: Global, words: &mut RowWords, page: &mut Page) -> Result<(), RowFault> {
    let room = words.size();
    let front = words.bytes(alloc);
    let text = words.bytes(alloc);
    let rest = words.bytes(alloc);
    let mut held = vec![in alloc; 0u8; room.min(1_000)]?;
    let mut writer = held.as_mut_slice();
    let is_written = put_between(&mut writer, &front, &text, &rest).is_ok();
    let left = writer.len();
    show_held(&held, left, is_written, page);
    Ok(())
}

/// `write-number ROOM FRONT NUMBER`: the same for a text and a number after it.
pub fn write_number(alloc: Global, words: &mut RowWords, page: &mut Page) -> Result<(), RowFault> {
    let room = words.size();
    let front = words.bytes(alloc);
    let number = words.byte();
    let mut held = vec![in alloc; 0u8; room.min(1_000)]?;
    let mut writer = held.as_mut_slice();
    let is_written = put_number(&mut writer, &front, number).is_ok();
    let left = writer.len();
    show_held(&held, left, is_written, page);
    Ok(())
}
