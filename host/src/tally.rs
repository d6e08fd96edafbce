//! Agreement, and how many answers there were of each number.
use crate::calls::number::NAMES;
use std::fmt;

/// Nothing if the condition holds, else the disagreement.
pub fn agree(condition: bool, message: impl FnOnce() -> String) -> Result<(), String> {
    if condition {
        return Ok(());
    }
    Err(message())
}

/// Counts answers.
#[derive(Default)]
pub struct Tally {
    counts: [usize; NAMES.len()],
}

impl Tally {
    /// Counts one answer of this number.
    pub fn add(&mut self, number: i32) {
        self.counts[number as usize] += 1;
    }

    /// How many there were of all numbers.
    pub fn total(&self) -> usize {
        self.counts.iter().sum()
    }
}

impl fmt::Display for Tally {
    fn fmt(&self, out: &mut fmt::Formatter) -> fmt::Result {
        write!(out, "{} calls:", self.total())?;
        for (name, count) in NAMES.iter().zip(self.counts).filter(|&(_, count)| count > 0) {
            write!(out, " {count} {name}")?;
        }
        Ok(())
    }
}
