//! The parts of the run. Each gives the line that says what it tried, or the case that failed.

pub mod checks;
pub mod damaged;
mod expected;
pub mod faults;
pub mod heights;
pub mod joins;
pub mod levels;
pub mod margins;
pub mod mismatches;
pub mod muted;
pub mod programs;
pub mod recorded;
pub mod streams;
pub mod strikes;
pub mod unread;
pub mod writing;

use crate::compare::Failure;

/// A number of cases that were drawn, as text: without any the part would have shown nothing of them.
pub fn drawn(n: usize, what: &str) -> Result<String, Failure> {
    match n {
        0 => Err(Failure::new(format!("not drawn: {what}"))),
        _ => Ok(count(n)),
    }
}

/// A number with commas between thousands.
pub fn count(n: usize) -> String {
    let digits = n.to_string();
    let mut text = String::new();
    for (i, digit) in digits.chars().enumerate() {
        if i > 0 && (digits.len() - i) % 3 == 0 {
            text.push(',');
        }
        text.push(digit);
    }
    text
}
