//! How often each outcome came up, by what was asked, where the relations stood that 13 and 19 name, and
//! which marks messages bore.

use super::deliveries::READINGS;
use oracle::generate::marks::Difference;
use oracle::unmet::Unmet;
use std::collections::BTreeMap;
use std::fmt;

/// Stands for an old message among the outcomes' numbers.
pub const OLD: u32 = u32::MAX;
/// Stands for a list with a number that is not finite.
pub const NOT_FINITE: u32 = u32::MAX - 1;

/// Among so many messages every outcome, difference and reading must come up.
const ENOUGH: usize = 2_000;

#[derive(Default)]
pub struct Coverage {
    outcomes: BTreeMap<(&'static str, u32), usize>,
    places: BTreeMap<(u8, &'static str), usize>,
    /// How the marks of messages differ from the wall's.
    marks: BTreeMap<Difference, usize>,
    /// What foreign messages would have been to the walls of their own desks.
    foreign: BTreeMap<&'static str, usize>,
}

impl Coverage {
    pub fn add(&mut self, row: &'static str, number: u32) {
        *self.outcomes.entry((row, number)).or_default() += 1;
    }

    /// Counts what an edit found that was refused for relations not met.
    pub fn add_place(&mut self, unmet: &Unmet) {
        for name in unmet.names() {
            *self.places.entry((unmet.refusal.number(), name)).or_default() += 1;
        }
    }

    pub fn add_mark(&mut self, difference: Difference) {
        *self.marks.entry(difference).or_default() += 1;
    }

    pub fn add_foreign(&mut self, reading: &'static str) {
        *self.foreign.entry(reading).or_default() += 1;
    }

    /// Fails where enough messages came to walls, and some outcome of a message, some difference of marks or
    /// some reading of a foreign message did not come up.
    pub fn check_deliveries(&self) -> Result<(), String> {
        if self.marks.values().sum::<usize>() < ENOUGH {
            return Ok(());
        }
        for number in [0, 1, 2, 6, 7, 28, OLD] {
            if !self.outcomes.keys().any(|(_, seen)| *seen == number) {
                return Err(format!("no outcome is {}", outcome(number)));
            }
        }
        for difference in [Difference::None, Difference::Far].iter().chain(&Difference::NEAR) {
            if !self.marks.contains_key(difference) {
                return Err(format!("no mark differs so: {}", difference.name()));
            }
        }
        match READINGS.iter().find(|reading| !self.foreign.contains_key(*reading)) {
            Some(reading) => Err(format!("no foreign message would have been so: {reading}")),
            None => Ok(()),
        }
    }
}

impl fmt::Display for Coverage {
    fn fmt(&self, f: &mut fmt::Formatter<'_>) -> fmt::Result {
        let mut last = "";
        for ((row, number), count) in &self.outcomes {
            if *row != last {
                let end = if last.is_empty() { "" } else { "\n" };
                write!(f, "{end}  {row:<8}")?;
                last = row;
            }
            write!(f, " {}:{count}", outcome(*number))?;
        }
        writeln!(f)?;
        for number in [13, 19] {
            let places = self.places.iter().filter(|((of, _), _)| *of == number);
            let places = places.map(|((_, name), count)| (*name, *count));
            write_row(f, &format!("place of {number}"), places)?;
        }
        let marks = self.marks.iter().map(|(difference, count)| (difference.name(), *count));
        write_row(f, "marks", marks)?;
        write_row(f, "foreign", self.foreign.iter().map(|(reading, count)| (*reading, *count)))
    }
}

fn outcome(number: u32) -> String {
    match number {
        0 => "accepted".into(),
        OLD => "old".into(),
        NOT_FINITE => "not finite".into(),
        number => number.to_string(),
    }
}

/// A line of names and counts, if there are any.
fn write_row(
    f: &mut fmt::Formatter<'_>,
    row: &str,
    counts: impl Iterator<Item = (&'static str, usize)>,
) -> fmt::Result {
    let counts: String = counts.map(|(name, count)| format!(" {name}:{count}")).collect();
    match counts.is_empty() {
        true => Ok(()),
        false => writeln!(f, "  {row:<8}{counts}"),
    }
}
