//! The answer of a row as text.

use crate::table::RowFault;
use std::alloc::{AllocError, Global};
use std::fmt::{Debug, Display};

/// Equal bytes are written once, with their count, if there are at least this many.
const LONG_RUN: usize = 8;

/// Text that grows: the answer of one row. If memory runs out, the page remembers that and no longer gives a text. So
/// code that writes on a page has no faults to handle; only the code that asks for the text has.
#[derive(Drop)]
pub struct Page {
    alloc: Global,
    text: String,
    lacks_memory: bool,
}

impl Page {
    /// Makes an empty page.
    pub fn new(alloc: Global) -> Page {
        Page {
            alloc,
            text: String::new(alloc),
            lacks_memory: false,
        }
    }

    /// Returns what was written. Fails if there was no memory for all of it.
    pub fn text(&self) -> Result<&str, RowFault> {
        if self.lacks_memory {
            Err(RowFault::OutOfMemory)
        } else {
            Ok(self.text.as_str())
        }
    }

    /// Returns whether nothing was written.
    pub fn is_empty(&self) -> bool {
        self.text.is_empty()
    }

    /// Returns whether both have the same text. A page that ran out of memory is like no other.
    pub fn is_like(&self, other: &Page) -> bool {
        let are_whole = !self.lacks_memory && !other.lacks_memory;
        are_whole && self.text.as_str() == other.text.as_str()
    }

    /// Removes the text. The page still remembers if memory ran out.
    pub fn clear(&mut self) {
        self.text.clear();
    }

    /// Remembers if memory ran out.
    fn note(&mut self, written: Result<(), AllocError>) {
        self.lacks_memory = self.lacks_memory || written.is_err();
    }

    /// Appends text.
    fn put(&mut self, text: &str) {
        let written = self.text.push_str(text);
        self.note(written);
    }

    /// Appends a word, after a space if there is text before it.
    pub fn word(&mut self, word: &str) {
        if !self.text.is_empty() {
            self.put(" ");
        }
        self.put(word);
    }

    /// Ends a part of the answer with a semicolon, if there is text.
    pub fn part(&mut self) {
        if !self.text.is_empty() {
            self.put(";");
        }
    }

    /// Appends a word that was made, if there was memory to make it.
    pub fn made(&mut self, word: Result<String, AllocError>) {
        match word {
            Ok(word) => self.word(word.as_str()),
            Err(_) => self.lacks_memory = true,
        }
    }

    /// Appends a number in decimal digits as a word.
    pub fn number<T: Display + Copy>(&mut self, number: T) {
        let word = format!(in self.alloc; "{number}");
        self.made(word);
    }

    /// Appends the first and the last number of a range as a word.
    pub(crate) fn range(&mut self, first: u64, last: u64) {
        let word = format!(in self.alloc; "{first}..{last}");
        self.made(word);
    }

    /// Appends a fault in parentheses, as users read it.
    pub fn fault<T: Display + Copy>(&mut self, fault: T) {
        let word = format!(in self.alloc; "({fault})");
        self.made(word);
    }

    /// Appends a value in its debug format; a variant without fields is its name.
    pub fn show<T: Debug>(&mut self, value: &T) {
        let word = format!(in self.alloc; "{value:?}");
        self.made(word);
    }

    /// Appends the text of another page as a word.
    pub fn page(&mut self, other: &Page) {
        self.lacks_memory = self.lacks_memory || other.lacks_memory;
        self.word(other.text.as_str());
    }

    /// Appends a text as it is, with `\n` for the ends of lines, after a space.
    pub fn lines(&mut self, text: &str) {
        self.word("");
        let mut rest = text;
        for _ in 0..u64::MAX {
            let Some((line, behind)) = rest.split_once('\n') else {
                break;
            };
            self.put(line);
            self.put("\\n");
            rest = behind;
        }
        self.put(rest);
    }

    /// Appends `yes` or `no`.
    pub fn flag(&mut self, flag: bool) {
        self.word(if flag { "yes" } else { "no" });
    }

    /// Appends bytes as a word: runs of equal bytes with their count, and `-` if there are none.
    pub fn bytes(&mut self, bytes: &[u8]) {
        self.word("");
        self.bytes_behind(bytes);
    }

    /// Appends bytes in the same way, but without a space before them.
    pub fn bytes_behind(&mut self, bytes: &[u8]) {
        if bytes.is_empty() {
            self.put("-");
        }
        let mut rest = bytes;
        let mut before = Part::Nothing;
        for _ in 0..u64::MAX {
            let Some(first) = rest.first() else {
                break;
            };
            let (part, behind) = rest.split_at(run_len(rest, *first));
            before = self.equal_bytes(before, *first, part);
            rest = behind;
        }
    }

    /// Appends bytes that are all equal, after the part `before` of the same word.
    fn equal_bytes(&mut self, before: Part, first: u8, bytes: &[u8]) -> Part {
        let run = bytes.len();
        let part = if run < LONG_RUN {
            Part::Digits
        } else {
            Part::Run
        };
        match (before, part) {
            (Part::Nothing, _) | (Part::Digits, Part::Digits) => {}
            _ => self.put("."),
        }
        let text: Result<String, AllocError> = match part {
            Part::Run => format!(in self.alloc; "{first:02x}*{run}"),
            _ => hex::encode(self.alloc, bytes),
        };
        match text {
            Ok(text) => self.put(text.as_str()),
            Err(_) => self.lacks_memory = true,
        }
        part
    }
}

/// The part of a word that is before some bytes.
#[derive(Clone, Copy)]
enum Part {
    Nothing,
    /// Digits, byte by byte.
    Digits,
    /// A byte with its count.
    Run,
}

/// Returns how many bytes from the first on are equal to it.
fn run_len(bytes: &[u8], first: u8) -> usize {
    match bytes.iter().position(|byte| *byte != first) {
        Some(len) => len,
        None => bytes.len(),
    }
}
