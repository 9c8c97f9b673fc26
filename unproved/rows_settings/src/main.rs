//! Rows of what people write and read: sizes, names, settings, command lines, texts and reports.

mod announcements;
mod disks;
mod reports;
mod tables;
mod texts;

use rows::{Page, RowFault, RowWords, Table, run_table};
use std::alloc::Global;
use std::process::ExitCode;

/// The document that was read last, and the meter that was begun last.
#[derive(Drop)]
struct Calls {
    document: Option<toml::Table>,
    meter: Option<oram_settings::Meter>,
}

impl Table for Calls {
    fn answer(
        &mut self,
        alloc: Global,
        call: &str,
        words: &mut RowWords,
        page: &mut Page,
    ) -> Result<(), RowFault> {
        match call {
            "document" => tables::document(alloc, &mut self.document, words, page),
            "at" => tables::at(self.document.as_ref(), words, page),
            "only" => tables::only(alloc, self.document.as_ref(), words, page),
            "write" => texts::write(alloc, words, page),
            "write-number" => texts::write_number(alloc, words, page),
            "size" => texts::size(words, page),
            "beside" => texts::beside_file(alloc, words, page),
            "place" => texts::place(alloc, words, page),
            "words" => texts::command_line(alloc, words, page),
            "says" => announcements::says(alloc, words, page),
            "disk" => disks::disk(alloc, words, page),
            "device" => disks::device(words, page),
            "near" => disks::near(words, page),
            "differs" => disks::differs(alloc, words, page),
            "first-settings" | "first-settings-set" => {
                disks::first_settings(alloc, call, words, page)
            }
            "progress" => reports::progress(alloc, words, page),
            "meter" => reports::meter(&mut self.meter, words, page),
            "due" => reports::due(self.meter.as_mut(), words, page),
            "report" => reports::disk_report(alloc, words, page),
            "json" => reports::json(alloc, words, page),
            _ => Err(RowFault::NoRow),
        }
    }
}

fn main(rt: HostRuntime) -> ExitCode {
    let mut calls = Calls {
        document: None,
        meter: None,
    };
    run_table(&rt, &mut calls)
}
