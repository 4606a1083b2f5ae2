//! The root search as a call of its own, with a lent buffer and a budget.

use crate::refusal::Refusal;
use crate::upstream;

/// Roots that the longest polynomial can have.
pub const BUFFER: usize = 28;

/// The number of roots or a refusal, and the budget that is left.
#[derive(Clone, Copy, Debug, PartialEq, Eq)]
pub struct Search {
    pub found: Result<usize, Refusal>,
    pub budget: usize,
}

/// Writes the roots to the front of the buffer, which a refusal leaves as it was.
pub fn roots(coefficients: &[f64], budget: usize, out: &mut [f64]) -> Search {
    if out.len() < BUFFER {
        return Search { found: Err(Refusal::Buffer), budget };
    }
    let mut left = budget;
    match upstream::roots(coefficients, &mut left) {
        Ok(roots) => {
            out[..roots.len()].copy_from_slice(&roots);
            Search { found: Ok(roots.len()), budget: left }
        }
        Err(error) => Search { found: Err(upstream::refusal_of(&error)), budget: left },
    }
}
