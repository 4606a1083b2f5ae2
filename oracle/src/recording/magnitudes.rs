//! The list of largest magnitudes. How many numbers stand in a list, a byte; how many finite ones it
//! begins with and the pattern of the largest magnitude, 0 where one is not finite, eight big-endian
//! bytes each; the patterns of the numbers.

use super::List;
use crate::generate::lists::{list, LONGEST};
use crate::generate::random::Random;
use crate::magnitude::{largest_magnitude, Magnitude};

const ENTRIES: usize = 800;

pub fn magnitudes(seed: u64) -> List<()> {
    let mut random = Random::new(seed);
    let mut list_of_entries = List::new(|_| Ok(()));
    for length in 0..=LONGEST {
        list_of_entries.add(entry(&vec![-0.0; length]));
    }
    for special in [f64::NAN, f64::INFINITY, f64::NEG_INFINITY] {
        for place in 0..LONGEST {
            list_of_entries.add(entry(&with(special, place)));
        }
    }
    while list_of_entries.len() < ENTRIES {
        list_of_entries.add(entry(&list(&mut random)));
    }
    list_of_entries
}

/// A longest list with one number that is not finite, and another behind it where there is room.
fn with(special: f64, place: usize) -> Vec<f64> {
    let mut numbers: Vec<f64> = (0..LONGEST).map(|at| at as f64 - 20.0).collect();
    numbers[place] = special;
    numbers[(place + 7).min(LONGEST - 1)] = special;
    numbers
}

fn entry(numbers: &[f64]) -> Vec<u8> {
    let (place, largest) = match largest_magnitude(numbers) {
        Magnitude::Largest(largest) => (numbers.len(), largest),
        Magnitude::NotFinite(place) => (place, 0.0),
    };
    let mut bytes = vec![numbers.len() as u8];
    bytes.extend((place as u64).to_be_bytes());
    bytes.extend(largest.to_bits().to_be_bytes());
    bytes.extend(numbers.iter().flat_map(|number| number.to_bits().to_be_bytes()));
    bytes
}
