//! The largest magnitude in a list, read plainly: first the finiteness of
//! every number, then the largest, as upstream's `scale` has it.

#[derive(Clone, Copy, Debug, PartialEq)]
pub enum Magnitude {
    /// All numbers are finite; +0 for an empty list.
    Largest(f64),
    /// The place, from 0, of the first number that is not finite.
    NotFinite(usize),
}

pub fn largest_magnitude(numbers: &[f64]) -> Magnitude {
    match numbers.iter().position(|number| !number.is_finite()) {
        Some(place) => Magnitude::NotFinite(place),
        None => Magnitude::Largest(numbers.iter().map(|v| v.abs()).fold(0.0_f64, f64::max)),
    }
}
