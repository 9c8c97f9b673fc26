//! Faults with numbers.

use rows::Page;
use std::fmt::Debug;

/// Writes the number of a fault, if it has one, and its name.
pub fn show_fault<T: Debug>(page: &mut Page, number: Option<u8>, fault: &T) {
    if let Some(number) = number {
        page.number(number);
    }
    page.show(fault);
}
