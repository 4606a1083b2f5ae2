//! Root searches with budgets about what they spend.

use super::coverage::Coverage;
use mulkefi::{roots, MOST_ROOTS};
use oracle::generate::polynomials::{budgets, coefficients, AMPLE};
use oracle::generate::random::Random;
use oracle::upstream;

pub fn compare(random: &mut Random, count: usize, seen: &mut Coverage) -> Result<(), String> {
    for _ in 0..count {
        let coefficients = coefficients(random);
        let mut left = AMPLE;
        let _ = upstream::roots(&coefficients, &mut left);
        let budgets = budgets(random, AMPLE - left);
        let budget = random.pick(&budgets);
        let (expected, found) =
            (by_oracle(&coefficients, budget), by_engine(&coefficients, budget));
        if expected != found {
            let case = format!("{coefficients:?} with {budget}");
            return Err(format!("{case}\n  oracle {expected:?}\n  engine {found:?}"));
        }
        seen.add("roots", expected.err().unwrap_or(0));
    }
    Ok(())
}

/// The roots' bits and the budget left, or the number.
type Found = Result<(Vec<u64>, usize), u32>;

fn by_oracle(coefficients: &[f64], budget: usize) -> Found {
    let mut lent = [0.0; MOST_ROOTS];
    let search = oracle::roots::roots(coefficients, budget, &mut lent);
    let count = search.found.map_err(|refusal| u32::from(refusal.number()))?;
    Ok((lent[..count].iter().map(|root| root.to_bits()).collect(), search.budget))
}

fn by_engine(coefficients: &[f64], budget: usize) -> Found {
    let found = roots(coefficients, budget).map_err(|refusal| u32::from(refusal.number()))?;
    Ok((found.values().iter().map(|root| root.to_bits()).collect(), found.budget))
}
