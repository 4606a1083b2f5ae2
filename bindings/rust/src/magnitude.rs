//! Whether the numbers of a list are finite, and their largest magnitude.

use crate::lend;
use crate::raw;

/// What [`largest_magnitude`] tells of a list.
#[derive(Clone, Copy, Debug, PartialEq)]
pub enum Magnitude {
    /// All numbers are finite, and this is the largest magnitude: +0 for an empty list.
    Largest(f64),
    /// The place, from 0, of the first number that is a NaN or an infinity.
    NotFinite(usize),
}

/// Tells which coefficient [`roots`](crate::roots) can't take, or how large they are. The list may
/// have any length.
///
/// ```
/// use mulkefi::{largest_magnitude, roots, Magnitude, Refusal};
///
/// assert_eq!(largest_magnitude(&[2.0, -3.0, 1.0]), Magnitude::Largest(3.0));
/// assert_eq!(largest_magnitude(&[]), Magnitude::Largest(0.0));
///
/// let spoilt = [1.0, f64::NAN, f64::INFINITY];
/// assert_eq!(roots(&spoilt, 100), Err(Refusal::Coefficients));
/// assert_eq!(largest_magnitude(&spoilt), Magnitude::NotFinite(1));
/// ```
pub fn largest_magnitude(numbers: &[f64]) -> Magnitude {
    let (list, n) = lend::floats(numbers);
    let mut largest = 0.0;
    // SAFETY: the list is lent for the call with its own length, and the one number is apart from it.
    let place = unsafe { raw::mulkefi_largest_magnitude(list, n, &raw mut largest) };
    match place == n {
        true => Magnitude::Largest(largest),
        false => Magnitude::NotFinite(place),
    }
}
