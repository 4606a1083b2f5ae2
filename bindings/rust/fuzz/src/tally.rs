//! How often each outcome came up, by call.

use std::collections::BTreeMap;
use std::fmt;

/// Stands for an old message among the outcomes' numbers.
pub const OLD: u32 = u32::MAX;
/// Stands for a list with a number that is not finite.
pub const NOT_FINITE: u32 = u32::MAX - 1;

#[derive(Default)]
pub struct Tally(BTreeMap<&'static str, BTreeMap<u32, u64>>);

impl Tally {
    pub fn add(&mut self, call: &'static str, number: u32) {
        *self.0.entry(call).or_default().entry(number).or_default() += 1;
    }
}

impl fmt::Display for Tally {
    fn fmt(&self, f: &mut fmt::Formatter<'_>) -> fmt::Result {
        for (call, outcomes) in &self.0 {
            write!(f, "  {call:<18}{:>9}:", outcomes.values().sum::<u64>())?;
            for (number, count) in outcomes {
                match *number {
                    0 => write!(f, " accepted:{count}")?,
                    OLD => write!(f, " old:{count}")?,
                    NOT_FINITE => write!(f, " not finite:{count}")?,
                    number => write!(f, " {number}:{count}")?,
                }
            }
            writeln!(f)?;
        }
        Ok(())
    }
}
