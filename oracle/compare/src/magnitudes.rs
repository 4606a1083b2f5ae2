//! The largest magnitude of a list of any length, against a plain reading in two passes; and what the
//! search for roots makes of the same list, against upstream's.

use crate::counts::Counts;
use crate::number::Number;
use crate::numerals::numeral;
use crate::roots::{upstream_search, MOST};
use crate::simpler;
use crate::subject::Subject;
use engine::polynomials;
use engine::polynomials::Search;
use oracle::generate::lists::list;
use oracle::generate::polynomials::AMPLE;
use oracle::generate::random::Random;
use oracle::magnitude::{largest_magnitude, Magnitude};
use oracle::roots::BUFFER;
use oracle::upstream;
use std::marker::PhantomData;

/// Who tells the largest magnitude.
pub trait Implementation {
    /// How many finite numbers come first; where all are finite the largest magnitude is written.
    fn largest_magnitude(numbers: &[f64], largest: &mut [f64; 1]) -> usize;
}

pub struct Engine;

impl Implementation for Engine {
    fn largest_magnitude(numbers: &[f64], largest: &mut [f64; 1]) -> usize {
        polynomials::largest_magnitude(numbers, largest)
    }
}

pub struct Magnitudes<I>(PhantomData<I>);

#[derive(Debug)]
pub struct Case {
    numbers: Vec<Number>,
}

impl Case {
    fn new(numbers: Vec<f64>) -> Case {
        Case { numbers: numbers.into_iter().map(Number).collect() }
    }

    fn numbers(&self) -> Vec<f64> {
        self.numbers.iter().map(|number| number.0).collect()
    }
}

/// How many finite numbers stand at the front, what the memory lent for the largest then holds, and,
/// where upstream is there, the search with its lent buffer.
#[derive(Debug, PartialEq)]
pub struct Answer {
    place: usize,
    largest: Number,
    search: Option<(Search, Vec<Number>)>,
}

/// What lent memory holds before a call.
const FILL: f64 = -7.25;

type Roots = fn(&[f64], &mut [f64], usize) -> Search;

fn searched(numbers: &[f64], roots: Roots) -> Option<(Search, Vec<Number>)> {
    upstream::PRESENT.then(|| {
        let mut lent = [FILL; BUFFER];
        let search = roots(numbers, &mut lent, AMPLE);
        (search, lent.map(Number).to_vec())
    })
}

fn count_not_finite(numbers: &[f64], place: usize, counts: &mut Counts) {
    let row = match numbers[place] {
        f64::INFINITY => "+inf at",
        f64::NEG_INFINITY => "-inf at",
        _ => "NaN at",
    };
    counts.add(row, numeral(place));
    let another = numbers[place + 1..].iter().any(|number| !number.is_finite());
    counts.add_if(another, "not finite", "more behind it");
}

fn count_finite(numbers: &[f64], largest: f64, counts: &mut Counts) {
    counts.add_if(largest == 0.0, "largest", "+0");
    counts.add_if(largest.is_subnormal(), "largest", "subnormal");
    counts.add_if(largest == f64::MAX, "largest", "the largest float");
    let minus_zero = numbers.iter().any(|number| number.to_bits() == 1 << 63);
    counts.add_if(minus_zero, "largest", "of a list with -0");
    let signed = numbers.iter().fold(f64::MIN, |most, number| most.max(*number));
    counts.add_if(largest > signed.abs(), "largest", "of one below 0, above all others");
}

fn count_search(numbers: &[f64], is_finite: bool, search: &Search, counts: &mut Counts) {
    let in_derivative = is_finite && !numbers.is_empty() && numbers.len() <= MOST;
    let outcome = match search.refusal {
        0 => "accepted",
        20 if in_derivative => "20 in a derivative",
        20 if is_finite => "20 by the length",
        20 => "20",
        _ => "other",
    };
    counts.add("search", outcome);
}

fn count(numbers: &[f64], magnitude: Magnitude, answer: &Answer, counts: &mut Counts) {
    counts.add("numbers", numeral(numbers.len()));
    match magnitude {
        Magnitude::NotFinite(place) => count_not_finite(numbers, place, counts),
        Magnitude::Largest(largest) => count_finite(numbers, largest, counts),
    }
    if let Some((search, _)) = &answer.search {
        let is_finite = matches!(magnitude, Magnitude::Largest(_));
        count_search(numbers, is_finite, search, counts);
    }
}

impl<I: Implementation> Subject for Magnitudes<I> {
    const NAME: &'static str = "magnitudes";
    type Case = Case;
    type Answer = Answer;
    type Coverage = Counts;

    fn case(random: &mut Random) -> Case {
        Case::new(list(random))
    }

    fn oracle(case: &Case, counts: &mut Counts) -> Answer {
        let numbers = case.numbers();
        let magnitude = largest_magnitude(&numbers);
        let (place, largest) = match magnitude {
            Magnitude::Largest(largest) => (numbers.len(), largest),
            Magnitude::NotFinite(place) => (place, FILL),
        };
        let search = searched(&numbers, upstream_search);
        let answer = Answer { place, largest: Number(largest), search };
        count(&numbers, magnitude, &answer, counts);
        answer
    }

    fn engine(case: &Case) -> Answer {
        let numbers = case.numbers();
        let mut largest = [FILL];
        let place = I::largest_magnitude(&numbers, &mut largest);
        let search = searched(&numbers, polynomials::roots);
        Answer { place, largest: Number(largest[0]), search }
    }

    fn shrink(case: Case, differs: impl Fn(&Case) -> bool) -> Case {
        let numbers =
            simpler::list(case.numbers(), |numbers| differs(&Case::new(numbers.to_vec())));
        Case::new(numbers)
    }
}

#[cfg(test)]
mod tests {
    use super::*;
    use crate::subject;

    /// A fault: the last number that is not finite is told.
    struct Last;

    impl Implementation for Last {
        fn largest_magnitude(numbers: &[f64], largest: &mut [f64; 1]) -> usize {
            let place = Engine::largest_magnitude(numbers, largest);
            numbers.iter().rposition(|number| !number.is_finite()).unwrap_or(place)
        }
    }

    /// A fault: the largest is taken with its sign.
    struct Signed;

    impl Implementation for Signed {
        fn largest_magnitude(numbers: &[f64], largest: &mut [f64; 1]) -> usize {
            let place = Engine::largest_magnitude(numbers, largest);
            if place == numbers.len() {
                largest[0] = numbers.iter().fold(0.0, |most, number| number.max(most));
            }
            place
        }
    }

    /// How many numbers the smallest case has.
    fn smallest<I: Implementation>() -> usize {
        let report = subject::run::<Magnitudes<I>>(5_000, 7).expect_err("a fault was planted");
        let case = report.lines().nth(1).expect("the smallest case stands in the second line");
        case.matches(" (").count()
    }

    #[test]
    fn planted_faults_are_found_and_shrunk() {
        assert_eq!(smallest::<Last>(), 2);
        assert_eq!(smallest::<Signed>(), 1);
    }
}
