//! Recorded answers: lists of inputs with their outcomes, for replay where no Rust is at hand.
//!
//! A list is a run of entries, each an outcome byte (a refusal's number, 0 for acceptance), the
//! input's length in four big-endian bytes, and the input.

mod catch_ups;
mod edit_sorts;
mod edits;
mod faults;
mod images;
mod magnitudes;
mod messages;
mod roots;
mod runs;
mod square_roots;

use crate::bytes::u32_at;
use crate::refusal::{number_of, Refusal};
use std::collections::BTreeSet;

pub use catch_ups::{catch_ups, Entry as CatchUpEntry, MOST_ROOM};
pub use edits::{edit_coverage, edits};
pub use images::images;
pub use magnitudes::magnitudes;
pub use messages::messages;
pub use roots::root_searches;
pub use runs::{run_coverage, runs, OLD};
pub use square_roots::square_roots;

/// The seed of the recorded lists: the same seed gives the same bytes.
pub const SEED: u64 = 1;

/// Bytes of an entry before its input.
const HEAD: usize = 5;

/// A list under construction; an input stands in it once.
pub struct List<T> {
    outcome_of: fn(&[u8]) -> Result<T, Refusal>,
    seen: BTreeSet<Vec<u8>>,
    bytes: Vec<u8>,
    outcomes: Vec<u8>,
}

impl<T> List<T> {
    fn new(outcome_of: fn(&[u8]) -> Result<T, Refusal>) -> Self {
        List { outcome_of, seen: BTreeSet::new(), bytes: Vec::new(), outcomes: Vec::new() }
    }

    fn outcome(&self, input: &[u8]) -> u8 {
        number_of(&(self.outcome_of)(input))
    }

    fn add(&mut self, input: Vec<u8>) {
        if self.seen.contains(&input) {
            return;
        }
        let outcome = self.outcome(&input);
        self.outcomes.push(outcome);
        self.bytes.push(outcome);
        self.bytes.extend((input.len() as u32).to_be_bytes());
        self.bytes.extend(&input);
        self.seen.insert(input);
    }

    /// Adds variants until each outcome among them stands `each` times or they run out.
    fn add_by_outcome(&mut self, each: usize, variants: impl Iterator<Item = Vec<u8>>) {
        let mut taken = [0; 256];
        for variant in variants {
            let outcome = usize::from(self.outcome(&variant));
            if taken[outcome] < each && !self.seen.contains(&variant) {
                taken[outcome] += 1;
                self.add(variant);
            }
        }
    }

    pub fn len(&self) -> usize {
        self.outcomes.len()
    }

    pub fn is_empty(&self) -> bool {
        self.outcomes.is_empty()
    }

    pub fn bytes(&self) -> &[u8] {
        &self.bytes
    }

    /// The outcome and the input of each entry, in order.
    pub fn entries(&self) -> impl Iterator<Item = (u8, &[u8])> {
        let mut rest = self.bytes();
        self.outcomes.iter().map(move |outcome| {
            let (input, behind) = rest[HEAD..].split_at(u32_at(rest, 1) as usize);
            rest = behind;
            (*outcome, input)
        })
    }

    /// The outcome of each entry, in order.
    pub fn outcomes(&self) -> &[u8] {
        &self.outcomes
    }
}
