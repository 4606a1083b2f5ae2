//! Counts of what a run of comparisons exercised.

use crate::drawing::Drawing;
use crate::message::Operation;
use crate::refusal::OUTCOMES;
use std::fmt;

/// How often each outcome, overall or by operation, each curve kind and relation kind came up.
#[derive(Clone, Default)]
pub struct Coverage {
    /// The first row for calls without an operation, then one row for each.
    outcomes: [[u64; OUTCOMES]; 4],
    curves: [u64; 6],
    relations: [u64; 10],
}

impl Coverage {
    /// Counts an outcome by its number, 0 for acceptance.
    pub fn outcome(&mut self, number: u8) {
        self.outcomes[0][usize::from(number)] += 1;
    }

    pub fn edit_outcome(&mut self, operation: Operation, number: u8) {
        self.outcomes[usize::from(operation.code())][usize::from(number)] += 1;
    }

    pub fn drawing(&mut self, drawing: &Drawing) {
        for curve in &drawing.curves {
            self.curves[usize::from(curve.kind.code())] += 1;
        }
        for relation in &drawing.relations {
            self.relations[usize::from(relation.code())] += 1;
        }
    }
}

impl fmt::Display for Coverage {
    fn fmt(&self, f: &mut fmt::Formatter<'_>) -> fmt::Result {
        const CURVES: [&str; 6] = ["", "line", "arc", "circle", "Bézier", "conic"];
        const ROWS: [&str; 4] = ["outcome", "trim", "split", "extend"];
        const RELATIONS: [&str; 10] = [
            "",
            "Coincident",
            "PointOnCurve",
            "Collinear",
            "Equal",
            "Length",
            "Distance",
            "Midpoint",
            "ArcLength",
            "ArcSweep",
        ];
        let numbers: Vec<String> = (0..OUTCOMES).map(|number| number.to_string()).collect();
        let numbers: Vec<&str> = numbers.iter().map(String::as_str).collect();
        for (row, outcomes) in ROWS.iter().zip(&self.outcomes) {
            write_counts(f, row, &numbers, outcomes)?;
        }
        write_counts(f, "curve", &CURVES, &self.curves)?;
        write_counts(f, "relation", &RELATIONS, &self.relations)
    }
}

/// One line of the table: what came up, each with its count; a whole line of zeros is left out.
fn write_counts(
    f: &mut fmt::Formatter<'_>,
    title: &str,
    names: &[&str],
    counts: &[u64],
) -> fmt::Result {
    if counts.iter().all(|count| *count == 0) {
        return Ok(());
    }
    write!(f, "  {title:<10}")?;
    for (name, count) in names.iter().zip(counts).filter(|(_, count)| **count > 0) {
        write!(f, " {name}:{count}")?;
    }
    writeln!(f)
}
