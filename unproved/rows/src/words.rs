//! The words of a row, read one by one.

use crate::table::RowFault;
use std::alloc::Global;

/// The words of a call that are still to be read. If a word is missing or isn't what was asked for, that is remembered
/// as a fault, and a zero or an empty value is returned instead. So code that reads words has no faults to handle; in
/// the end the row's answer isn't written.
#[derive(Drop)]
pub struct RowWords<'a> {
    rest: &'a str,
    fault: Option<RowFault>,
}

impl<'a> RowWords<'a> {
    /// Splits a line into words, which single spaces separate.
    pub fn of(line: &'a str) -> RowWords<'a> {
        RowWords {
            rest: line.trim(),
            fault: None,
        }
    }

    /// Returns whether every word was read.
    pub fn is_empty(&self) -> bool {
        self.rest.is_empty()
    }

    /// Returns the first fault of the words that were read, if there was one.
    pub fn check(&self) -> Result<(), RowFault> {
        match self.fault {
            None => Ok(()),
            Some(fault) => Err(fault),
        }
    }

    /// Remembers a fault, and returns the value to use instead of the word.
    fn note<T>(&mut self, fault: RowFault, instead: T) -> T {
        self.fault = self.fault.or(Some(fault));
        instead
    }

    /// Returns what was read, or `instead` if that failed.
    fn noted<T: Drop>(&mut self, read: Result<T, RowFault>, instead: T) -> T {
        match read {
            Ok(value) => value,
            Err(fault) => self.note(fault, instead),
        }
    }

    /// Returns the next word.
    pub fn text(&mut self) -> &'a str {
        if self.rest.is_empty() {
            return self.note(RowFault::NoRow, "");
        }
        let (word, rest) = self.rest.split_once(' ').unwrap_or((self.rest, ""));
        self.rest = rest;
        word
    }

    /// Reads the next word if it is this one, and returns whether it was.
    pub fn takes(&mut self, expected: &str) -> bool {
        let (word, rest) = self.rest.split_once(' ').unwrap_or((self.rest, ""));
        if word == expected {
            self.rest = rest;
            true
        } else {
            false
        }
    }

    /// Returns all words that are left, as one text.
    pub fn all(&mut self) -> &'a str {
        let rest = self.rest;
        self.rest = "";
        rest
    }

    /// Returns all words that are left, as a text in which `\n` is the end of a line.
    pub fn lines(&mut self, alloc: Global) -> String {
        let read = lines_of(alloc, self.all());
        self.noted(read, String::new(alloc))
    }

    /// Reads the next word as a decimal number.
    pub fn number(&mut self) -> u64 {
        match self.text().parse::<u64>() {
            Ok(number) => number,
            Err(_) => self.note(RowFault::NoRow, 0),
        }
    }

    /// Reads the next word as a decimal number below 2^32.
    pub fn short(&mut self) -> u32 {
        match u32::try_from(self.number()) {
            Ok(number) => number,
            Err(_) => self.note(RowFault::NoRow, 0),
        }
    }

    /// Reads the next word as a decimal number below 2^8.
    pub fn byte(&mut self) -> u8 {
        match u8::try_from(self.number()) {
            Ok(number) => number,
            Err(_) => self.note(RowFault::NoRow, 0),
        }
    }

    /// Reads the next word as a length or a position.
    pub fn size(&mut self) -> usize {
        match usize::try_from(self.number()) {
            Ok(number) => number,
            Err(_) => self.note(RowFault::NoRow, 0),
        }
    }

    /// Reads the next word, which is `yes` or `no`, as a flag.
    pub fn flag(&mut self) -> bool {
        match self.text() {
            "yes" => true,
            "no" => false,
            _ => self.note(RowFault::NoRow, false),
        }
    }

    /// Reads the next word as bytes.
    pub fn bytes(&mut self, alloc: Global) -> Vec<u8> {
        let read = bytes_of(alloc, self.text());
        self.noted(read, Vec::new(alloc))
    }

    /// Reads the next word as 32 bytes. Any other number of bytes is a fault.
    pub fn array(&mut self, alloc: Global) -> [u8; 32] {
        let bytes = self.bytes(alloc);
        let mut array = [0; 32];
        if bytes.len() != array.len() {
            return self.note(RowFault::NoRow, array);
        }
        array.copy_from_slice(&bytes);
        array
    }

    /// Returns all words that are left, one by one.
    pub fn texts(&mut self, alloc: Global) -> Vec<&'a str> {
        let mut texts = Vec::new(alloc);
        for _ in 0..u64::MAX {
            if self.is_empty() {
                break;
            }
            if texts.push(self.text()).is_err() {
                return self.note(RowFault::OutOfMemory, texts);
            }
        }
        texts
    }

    /// Reads all words that are left, each as bytes.
    pub fn bodies(&mut self, alloc: Global) -> Vec<Vec<u8>> {
        let mut bodies = Vec::new(alloc);
        for _ in 0..u64::MAX {
            if self.is_empty() {
                break;
            }
            if bodies.push(self.bytes(alloc)).is_err() {
                return self.note(RowFault::OutOfMemory, bodies);
            }
        }
        bodies
    }

    /// Reads all words that are left as decimal numbers.
    pub fn numbers(&mut self, alloc: Global) -> Vec<u64> {
        let mut numbers = Vec::new(alloc);
        for _ in 0..u64::MAX {
            if self.is_empty() {
                break;
            }
            if numbers.push(self.number()).is_err() {
                return self.note(RowFault::OutOfMemory, numbers);
            }
        }
        numbers
    }

    /// Reads all words that are left as decimal numbers below 2^32.
    pub fn shorts(&mut self, alloc: Global) -> Vec<u32> {
        let mut numbers = Vec::new(alloc);
        for _ in 0..u64::MAX {
            if self.is_empty() {
                break;
            }
            if numbers.push(self.short()).is_err() {
                return self.note(RowFault::OutOfMemory, numbers);
            }
        }
        numbers
    }
}

/// Replaces each `\n` in a text by the end of a line.
fn lines_of(alloc: Global, word: &str) -> Result<String, RowFault> {
    let mut text = String::new(alloc);
    let mut rest = word;
    for _ in 0..u64::MAX {
        let Some((line, behind)) = rest.split_once("\\n") else {
            text.push_str(rest)?;
            break;
        };
        text.push_str(line)?;
        text.push('\n')?;
        rest = behind;
    }
    Ok(text)
}

/// Reads the bytes that a word means: parts that are hexadecimal digits or one byte with its count, or `-` for none.
fn bytes_of(alloc: Global, word: &str) -> Result<Vec<u8>, RowFault> {
    let mut rest = word;
    let mut bytes = Vec::new(alloc);
    if rest == "-" {
        return Ok(bytes);
    }
    for _ in 0..u64::MAX {
        let (part, behind) = rest.split_once('.').unwrap_or((rest, ""));
        push_part(alloc, &mut bytes, part)?;
        if behind.is_empty() {
            break;
        }
        rest = behind;
    }
    Ok(bytes)
}

/// Appends the bytes of one part: hexadecimal digits, or one byte with its count.
fn push_part(alloc: Global, bytes: &mut Vec<u8>, part: &str) -> Result<(), RowFault> {
    let Some((byte, count)) = part.split_once('*') else {
        let made = hex::decode(alloc, part)?;
        bytes.extend_from_slice(&made)?;
        return Ok(());
    };
    let made = hex::decode(alloc, byte)?;
    let count = count.parse::<u32>()?;
    let [byte] = made.as_slice() else {
        return Err(RowFault::NoRow);
    };
    for _ in 0..count {
        bytes.push(*byte)?;
    }
    Ok(())
}
