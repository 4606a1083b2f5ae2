//! `mulkefi_largest_magnitude`.

use crate::calls::Calls;
use crate::guard::Guarded;
use crate::inputs;
use crate::tally::NOT_FINITE;
use oracle::generate::lists::list;
use oracle::generate::random::Random;
use oracle::magnitude::{largest_magnitude, Magnitude};

const FLOAT: usize = 8;
const LARGEST_BEFORE: [u8; FLOAT] = [0x3c; FLOAT];
/// The most numbers that are tried.
const MOST: usize = 2_048;

pub struct Subject {
    numbers: Guarded,
    largest: Guarded,
}

impl Subject {
    pub fn new() -> Subject {
        let [numbers, largest] = [FLOAT * MOST, FLOAT].map(Guarded::new);
        Subject { numbers, largest }
    }

    /// Answers 0 where all are finite. The plain reading in Rust must give the same.
    pub fn try_one(&mut self, calls: &Calls, random: &mut Random) -> Result<u32, String> {
        let mut numbers = list(random);
        if random.one_in(40) {
            numbers.resize(random.pick(&[0, 15, 16, 256, MOST]), -0.5);
        }
        let bytes: Vec<u8> = numbers.iter().flat_map(|number| number.to_ne_bytes()).collect();
        let given = self.numbers.lend_to_read(&bytes, inputs::edge(random)).cast();
        let largest = self.largest.lend(&LARGEST_BEFORE, inputs::edge(random)).cast();
        // SAFETY: two buffers apart; the second has one number.
        let place = unsafe { (calls.largest_magnitude)(given, numbers.len(), largest) };
        let (expected, written, outcome) = match largest_magnitude(&numbers) {
            Magnitude::Largest(most) => (numbers.len(), most.to_ne_bytes(), 0),
            Magnitude::NotFinite(first) => (first, LARGEST_BEFORE, NOT_FINITE),
        };
        let room = if outcome == 0 { FLOAT } else { 0 };
        self.largest.check("the largest", room)?;
        match place == expected && self.largest.bytes() == written {
            true => Ok(outcome),
            false => Err(format!("the engine says {place}, the plain reading {expected}")),
        }
    }
}
