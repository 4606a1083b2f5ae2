//! Where a polynomial in Bernstein form vanishes between 0 and 1.

use crate::lend;
use crate::raw;
use crate::refusal::Refusal;

/// The room that the search asks for: two roots for each of fourteen degrees.
pub const MOST_ROOTS: usize = 28;

/// The roots in rising order, and what the search left of its budget.
#[derive(Clone, Copy, Debug, PartialEq)]
pub struct Roots {
    found: [f64; MOST_ROOTS],
    count: usize,
    /// The steps that the search left of its budget.
    pub budget: usize,
}

impl Roots {
    /// The roots, in rising order.
    pub fn values(&self) -> &[f64] {
        &self.found[..self.count]
    }
}

/// Searches with a budget of steps. Of the budget [`Refusal::Work`] leaves nothing, and
/// [`Refusal::Coefficients`] all.
///
/// ```
/// use mulkefi::{roots, Refusal};
///
/// let found = roots(&[-1.0, 1.0], 100)?;
/// assert_eq!(found.values(), [0.5 - 0.5f64.powi(47)]);
/// assert_eq!(found.budget, 53);
/// assert_eq!(roots(&[-1.0, 1.0], 46), Err(Refusal::Work));
/// assert_eq!(roots(&[], 100), Err(Refusal::Coefficients));
/// assert!(roots(&[5.0], 100)?.values().is_empty());
/// # Ok::<(), Refusal>(())
/// ```
pub fn roots(coefficients: &[f64], budget: usize) -> Result<Roots, Refusal> {
    let (numbers, n) = lend::floats(coefficients);
    let mut found = [0.0; MOST_ROOTS];
    let mut answer = [0u64; 2];
    // SAFETY: the three buffers are apart, lent for the call with their own lengths, and the engine
    // stays within these; `answer` has the two numbers that it writes.
    let refused = unsafe {
        raw::mulkefi_roots(numbers, n, found.as_mut_ptr(), found.len(), budget, answer.as_mut_ptr())
    };
    Refusal::of_answer(refused)?;
    let [count, left] = answer.map(|number| number as usize);
    assert!(count <= MOST_ROOTS, "the roots keep within the room lent for them");
    Ok(Roots { found, count, budget: left })
}
