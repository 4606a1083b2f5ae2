//! Lists of numbers of any length: the largest magnitude, or the place of the first not finite.

use super::coverage::{Coverage, NOT_FINITE};
use oracle::generate::lists::list;
use oracle::generate::random::Random;

pub fn compare(random: &mut Random, count: usize, seen: &mut Coverage) -> Result<(), String> {
    for _ in 0..count {
        let numbers = list(random);
        let (expected, found) = (by_oracle(&numbers), by_engine(&numbers));
        if expected != found {
            return Err(format!("{numbers:?}\n  oracle {expected:?}\n  engine {found:?}"));
        }
        seen.add("lists", expected.map_or(NOT_FINITE, |_| 0));
    }
    Ok(())
}

/// The largest magnitude's bits, or the place.
type Found = Result<u64, usize>;

fn by_oracle(numbers: &[f64]) -> Found {
    use oracle::magnitude::{largest_magnitude, Magnitude};
    match largest_magnitude(numbers) {
        Magnitude::Largest(largest) => Ok(largest.to_bits()),
        Magnitude::NotFinite(place) => Err(place),
    }
}

fn by_engine(numbers: &[f64]) -> Found {
    use mulkefi::{largest_magnitude, Magnitude};
    match largest_magnitude(numbers) {
        Magnitude::Largest(largest) => Ok(largest.to_bits()),
        Magnitude::NotFinite(place) => Err(place),
    }
}
