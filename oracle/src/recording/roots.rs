//! The list of root searches. How many floats are lent and how many coefficients there are, a byte
//! each; the budget and what is left of it, eight big-endian bytes each; the patterns of the
//! coefficients and then of the roots.

use super::List;
use crate::generate::polynomials::{budgets, coefficients, AMPLE};
use crate::generate::random::Random;
use crate::refusal::Refusal;
use crate::roots::{roots, BUFFER};
use crate::upstream;

const ENTRIES: usize = 1600;
/// Bytes before the coefficients.
const HEAD: usize = 18;

pub fn root_searches(seed: u64) -> List<()> {
    let mut random = Random::new(seed);
    let mut list = List::new(outcome_of);
    for (example, budget) in examples() {
        list.add(entry(&example, BUFFER, budget));
    }
    while list.len() < ENTRIES {
        let coefficients = coefficients(&mut random);
        let mut left = AMPLE;
        let _ = upstream::roots(&coefficients, &mut left);
        let room = random.weighted(&[(20, BUFFER), (1, 40), (1, BUFFER - 1), (1, 0)]);
        for budget in budgets(&mut random, AMPLE - left) {
            list.add(entry(&coefficients, room, budget));
        }
    }
    list
}

/// The worked examples, and the ends of what may be asked.
fn examples() -> Vec<(Vec<f64>, usize)> {
    let rising = vec![-1.0, 1.0];
    let searches = [100, 47, 46, 0].map(|budget| (rising.clone(), budget));
    let others = [vec![0.0, 1.0], vec![1.0, -1.0, 1.0], vec![1.0; 16], vec![5.0], vec![]];
    searches.into_iter().chain(others.map(|list| (list, 100))).collect()
}

fn entry(coefficients: &[f64], room: usize, budget: usize) -> Vec<u8> {
    let mut lent = vec![0.0; room];
    let search = roots(coefficients, budget, &mut lent);
    let found = &lent[..search.found.unwrap_or(0)];
    let mut bytes = vec![room as u8, coefficients.len() as u8];
    bytes.extend((budget as u64).to_be_bytes());
    bytes.extend((search.budget as u64).to_be_bytes());
    bytes.extend(coefficients.iter().chain(found).flat_map(|x| x.to_bits().to_be_bytes()));
    bytes
}

/// The outcome of the search that an entry records.
fn outcome_of(entry: &[u8]) -> Result<(), Refusal> {
    let (room, count) = (usize::from(entry[0]), usize::from(entry[1]));
    let number = |at: usize| u64::from_be_bytes(entry[at..at + 8].try_into().expect("eight"));
    let coefficients: Vec<f64> = (0..count).map(|i| f64::from_bits(number(HEAD + 8 * i))).collect();
    roots(&coefficients, number(2) as usize, &mut vec![0.0; room]).found.map(|_| ())
}
