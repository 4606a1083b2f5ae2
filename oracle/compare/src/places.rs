//! Counts of the places that come with 13 and 19.

use crate::counts::Counts;
use oracle::refusal::Refusal;
use oracle::unmet::Unmet;

/// Counts what a refusal by 13 found in the first row, what one by 19 found in the second.
pub fn count(rows: [&'static str; 2], unmet: Option<Unmet>, counts: &mut Counts) {
    let Some(unmet) = unmet else { return };
    let row = rows[usize::from(unmet.refusal == Refusal::Conflict)];
    unmet.names().for_each(|name| counts.add(row, name));
}
