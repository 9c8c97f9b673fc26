//! Reads rows in turn, and writes each with its answer.

use crate::page::Page;
use crate::words::RowWords;
use hex::FromHexError;
use std::alloc::{AllocError, AllocFailed, Global};
use std::io;
use std::io::{BufRead, BufReader, BufWriter, ErrorKind, Write};
use std::num::{ParseIntError, TryFromIntError};
use std::process::ExitCode;

/// Why a row isn't answered.
#[derive(Clone, Copy, Debug, PartialEq, Eq)]
pub enum RowFault {
    /// The words make no call.
    NoRow,
    OutOfMemory,
}

impl From<AllocError> for RowFault {
    fn from(_error: AllocError) -> RowFault {
        RowFault::OutOfMemory
    }
}

impl<T: Drop> From<AllocFailed<T>> for RowFault {
    fn from(_error: AllocFailed<T>) -> RowFault {
        RowFault::OutOfMemory
    }
}

impl From<ParseIntError> for RowFault {
    fn from(_error: ParseIntError) -> RowFault {
        RowFault::NoRow
    }
}

impl From<TryFromIntError> for RowFault {
    fn from(_error: TryFromIntError) -> RowFault {
        RowFault::NoRow
    }
}

impl From<FromHexError> for RowFault {
    fn from(error: FromHexError) -> RowFault {
        match error {
            FromHexError::OutOfMemory => RowFault::OutOfMemory,
            _ => RowFault::NoRow,
        }
    }
}

/// The calls that the rows of a program may name, and the values that these calls keep from row to row.
pub trait Table {
    /// Makes the call of this name with these words, and writes its answer on the page. Fails with [`RowFault::NoRow`]
    /// if the words make no call.
    fn answer(
        &mut self,
        alloc: Global,
        call: &str,
        words: &mut RowWords,
        page: &mut Page,
    ) -> Result<(), RowFault>;
}

/// Answers one row, which comes without the end of its line.
fn answer_row<T: Table>(
    alloc: Global,
    table: &mut T,
    row: &str,
    page: &mut Page,
) -> Result<(), AllocError> {
    let mut words = RowWords::of(row);
    let call = words.text();
    let made = table.answer(alloc, call, &mut words, page);
    match words.check().and(made) {
        Ok(()) if words.is_empty() => Ok(()),
        Err(RowFault::OutOfMemory) => Err(AllocError),
        Ok(()) | Err(RowFault::NoRow) => {
            page.clear();
            page.word("no such row");
            Ok(())
        }
    }
}

/// Returns a row without its expected answer.
fn call_of(line: &str) -> &str {
    match line.split_once(" =>") {
        Some((row, _)) => row,
        None => line,
    }
}

/// Answers the rows of a reader in turn, and writes each with its answer.
fn answer_rows<R: BufRead + Drop, W: Write, T: Table>(
    alloc: Global,
    reader: R,
    writer: &mut W,
    table: &mut T,
) -> io::Result<()> {
    let mut page = Page::new(alloc);
    for line in reader.lines(alloc) {
        let line = line?;
        let text = line.as_str();
        if text.is_empty() || text.starts_with('#') {
            writeln!(writer, "{text}")?;
            continue;
        }
        let row = call_of(text);
        page.clear();
        answer_row(alloc, table, row, &mut page)?;
        let Ok(answer) = page.text() else {
            return Err(io::Error::from(ErrorKind::OutOfMemory));
        };
        writeln!(writer, "{row} => {answer}")?;
    }
    Ok(())
}

/// Answers the rows of standard input on standard output. The exit status is 3 if memory ran out, which the last line
/// then says, and 4 if reading or writing failed.
pub fn run_table<T: Table>(rt: &(impl Input + Print + AllocGlobal), table: &mut T) -> ExitCode {
    let alloc = rt.alloc();
    let reader = BufReader::new(alloc, rt.reader());
    let writer = BufWriter::new(alloc, io::writer(rt));
    let (Ok(reader), Ok(mut writer)) = (reader, writer) else {
        return ended(
            &mut io::writer(rt),
            Err(io::Error::from(ErrorKind::OutOfMemory)),
        );
    };
    let answered = answer_rows(alloc, reader, &mut writer, table);
    ended(&mut writer, answered)
}

/// Writes the last line, and returns the exit status of rows that ended like this.
fn ended<W: Write>(writer: &mut W, answered: io::Result<()>) -> ExitCode {
    let status = match answered {
        Ok(()) => 0,
        Err(error) if error.kind() == ErrorKind::OutOfMemory => 3,
        Err(_) => 4,
    };
    let written = if status == 3 {
        writeln!(writer, "out of memory")
    } else {
        Ok(())
    };
    let flushed = writer.flush();
    ExitCode::from(if written.is_err() || flushed.is_err() {
        4
    } else {
        status
    })
}
