//! The list of square roots: a number's pattern and its root's, eight big-endian bytes each.

use super::List;
use crate::generate::numbers::EDGE_FLOATS;
use crate::generate::patterns;
use crate::generate::random::Random;

const ENTRIES: usize = 6000;

pub fn square_roots(seed: u64) -> List<()> {
    let mut random = Random::new(seed);
    let mut list = List::new(|_| Ok(()));
    for pattern in EDGE_FLOATS {
        list.add(entry(pattern));
    }
    for exponent in 0..2048 {
        list.add(entry(exponent << 52));
    }
    while list.len() < ENTRIES {
        list.add(entry(patterns::pattern(&mut random)));
    }
    list
}

/// Any NaN stands for that of the root, so one is chosen.
fn entry(pattern: u64) -> Vec<u8> {
    let root = f64::from_bits(pattern).sqrt();
    let root = if root.is_nan() { f64::NAN } else { root };
    [pattern.to_be_bytes(), root.to_bits().to_be_bytes()].concat()
}
