//! What the comparisons of all subjects share: generate, run both sides, shrink, report.

use oracle::generate::random::Random;
use std::fmt::{Debug, Display};
use std::time::Instant;

/// One kind of comparison between the engine and the oracle.
pub trait Subject {
    const NAME: &'static str;
    type Case: Debug;
    /// Everything that a call gives back or leaves behind.
    type Answer: Debug + PartialEq;
    /// Counts of what came up.
    type Coverage: Default + Display;

    fn case(random: &mut Random) -> Self::Case;
    fn oracle(case: &Self::Case, coverage: &mut Self::Coverage) -> Self::Answer;
    fn engine(case: &Self::Case) -> Self::Answer;
    /// A case as small as can be found for which `differs` still holds.
    fn shrink(case: Self::Case, differs: impl Fn(&Self::Case) -> bool) -> Self::Case;
}

/// Compares so many cases; the first difference ends the run and is given back as text.
pub fn run<S: Subject>(cases: usize, seed: u64) -> Result<(), String> {
    let start = Instant::now();
    let mut random = Random::new(seed);
    let mut coverage = S::Coverage::default();
    for number in 0..cases {
        let case = S::case(&mut random);
        if S::oracle(&case, &mut coverage) != S::engine(&case) {
            return Err(report::<S>(number, case));
        }
    }
    println!("{}: {cases} alike in {:.1} s", S::NAME, start.elapsed().as_secs_f64());
    print!("{coverage}");
    Ok(())
}

fn report<S: Subject>(number: usize, case: S::Case) -> String {
    let oracle = |case: &S::Case| S::oracle(case, &mut S::Coverage::default());
    let smallest = S::shrink(case, |case| oracle(case) != S::engine(case));
    format!(
        "{}: case {number} differs; smallest found:\n  {smallest:?}\n  oracle {:?}\n  engine {:?}",
        S::NAME,
        oracle(&smallest),
        S::engine(&smallest)
    )
}
