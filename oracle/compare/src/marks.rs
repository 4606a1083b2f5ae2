//! Counts of the marks that messages bear.

use crate::counts::Counts;
use oracle::bytes::u64_at;
use oracle::generate::marks::Difference;
use oracle::message::{Mark, MARK_AT, NUMBER_AT};

/// Counts an outcome by how the mark of the bytes, if they are long enough for one, differs from the
/// wall's own.
pub fn count(own: Mark, bytes: &[u8], outcome: &'static str, counts: &mut Counts) {
    if bytes.len() < NUMBER_AT {
        return counts.add("without a mark", outcome);
    }
    match Difference::between(own, u64_at(bytes, MARK_AT)) {
        Difference::None => counts.add("own mark", outcome),
        Difference::Far => counts.add("far mark", outcome),
        near => {
            counts.add("near mark", outcome);
            counts.add("near mark by", near.name());
        }
    }
}
