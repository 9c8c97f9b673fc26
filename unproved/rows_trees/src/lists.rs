//! Lists in one word: `5,2,5`, with `7*20` for 20 times 7, and `-` for an empty list. Blocks are written
//! `ADDRESS:LEAF`.

use rows::{Page, RowFault, RowWords};
use std::alloc::Global;

/// Reads a part of a word as a decimal number.
fn number_of(part: &str) -> Result<u64, RowFault> {
    let mut words = RowWords::of(part);
    let number = words.number();
    words.check()?;
    Ok(number)
}

/// Reads a part of a word as a decimal number below 2^32.
pub fn short_of(part: &str) -> Result<u32, RowFault> {
    let mut words = RowWords::of(part);
    let number = words.short();
    words.check()?;
    Ok(number)
}

/// Adds one part of a list: a number, or a number and how many times it occurs.
fn push_part(numbers: &mut Vec<u64>, part: &str) -> Result<(), RowFault> {
    let (number, count) = part.split_once('*').unwrap_or((part, "1"));
    let number = number_of(number)?;
    for _ in 0..short_of(count)? {
        numbers.push(number)?;
    }
    Ok(())
}

/// Reads the next word as numbers.
pub fn numbers(alloc: Global, words: &mut RowWords) -> Result<Vec<u64>, RowFault> {
    let mut numbers = Vec::new(alloc);
    let mut rest = words.text();
    if rest == "-" {
        return Ok(numbers);
    }
    for _ in 0..u64::MAX {
        let (part, behind) = rest.split_once(',').unwrap_or((rest, ""));
        push_part(&mut numbers, part)?;
        if behind.is_empty() {
            break;
        }
        rest = behind;
    }
    Ok(numbers)
}

/// Reads the next word as numbers below 2^32.
pub fn shorts(alloc: Global, words: &mut RowWords) -> Result<Vec<u32>, RowFault> {
    let mut shorts = Vec::new(alloc);
    for number in &numbers(alloc, words)? {
        if *number > 0xffff_ffff {
            return Err(RowFault::NoRow);
        }
        shorts.push(*number as u32)?;
    }
    Ok(shorts)
}

/// Reads the next word as numbers below 2^8.
pub fn fills(alloc: Global, words: &mut RowWords) -> Result<Vec<u8>, RowFault> {
    let mut fills = Vec::new(alloc);
    for number in &numbers(alloc, words)? {
        if *number > 0xff {
            return Err(RowFault::NoRow);
        }
        fills.push(*number as u8)?;
    }
    Ok(fills)
}

/// Writes numbers as words, and `-` if there are none.
pub fn show(numbers: &[u64], page: &mut Page) {
    if numbers.is_empty() {
        page.word("-");
    }
    for number in numbers {
        page.number(*number);
    }
}
