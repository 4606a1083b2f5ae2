//! What happened at one bridge.

use std::collections::BTreeMap;

#[derive(Default)]
pub struct Tally {
    pub asked: usize,
    pub accepted: usize,
    pub cut_away: usize,
    pub refused: BTreeMap<u16, usize>,
    /// Refusals that name a relation, and those of them that name the first that is not met.
    pub named: usize,
    pub named_first: usize,
    /// What came to the wall by radio.
    pub applied: usize,
    pub old: usize,
    pub ahead: usize,
    pub foreign: usize,
    /// What came to its door while that was shut.
    pub missed: usize,
    /// The edits by which it caught up when its door opened.
    pub caught_up_at_door: usize,
    /// The wall's count before what is due was sent again.
    pub wall_before: u32,
    /// The desk's counts at which the wall was started again.
    pub started_again: Vec<u32>,
}

impl Tally {
    /// Each number with how often it came.
    pub fn refusals(&self) -> String {
        let each = self.refused.iter().map(|(number, times)| format!("{number} ({times})"));
        each.collect::<Vec<_>>().join(", ")
    }

    /// The counts at which the wall was started again.
    pub fn starts(&self) -> String {
        let each = self.started_again.iter().map(|count| format!("at {count}"));
        let starts = each.collect::<Vec<_>>().join(", ");
        if starts.is_empty() {
            "no".into()
        } else {
            starts
        }
    }
}
