//! The search for roots, with budgets about what it spends, and the value of a polynomial at a place.

use crate::counts::Counts;
use crate::number::Number;
use crate::simpler;
use crate::subject::Subject;
use engine::polynomials;
use engine::polynomials::Search;
use oracle::generate::polynomials::{budgets, coefficients, AMPLE};
use oracle::generate::{patterns, random::Random};
use oracle::refusal::number_of;
use oracle::roots::{roots, BUFFER};
use oracle::upstream;

pub struct Roots;

#[derive(Debug)]
pub struct Case {
    coefficients: Vec<Number>,
    budgets: [usize; 4],
    room: usize,
    place: Number,
}

/// Of each search what it answered and all of the lent buffer; and the value at the place.
#[derive(Debug, PartialEq)]
pub struct Answer {
    searches: Vec<(Search, Vec<Number>)>,
    value: Option<Number>,
}

/// Upstream's evaluation has room for so many coefficients.
pub const MOST: usize = 15;
/// What the lent buffer holds before a call.
const FILL: f64 = -7.25;

impl Case {
    fn numbers(&self) -> Vec<f64> {
        self.coefficients.iter().map(|number| number.0).collect()
    }

    fn with(&self, coefficients: Vec<f64>) -> Case {
        let coefficients = coefficients.into_iter().map(Number).collect();
        Case { coefficients, budgets: self.budgets, room: self.room, place: self.place }
    }

    fn answer(
        &self,
        search: impl Fn(&[f64], &mut [f64], usize) -> Search,
        value: impl Fn(&[f64], f64) -> f64,
    ) -> Answer {
        let numbers = self.numbers();
        let searches = self.budgets.map(|budget| {
            let mut lent = vec![FILL; self.room];
            let found = search(&numbers, &mut lent, budget);
            (found, lent.into_iter().map(Number).collect())
        });
        let evaluated = numbers.len() <= MOST;
        let value = evaluated.then(|| Number(value(&numbers, self.place.0)));
        Answer { searches: searches.into(), value }
    }
}

fn place(random: &mut Random) -> f64 {
    let within = random.unit();
    let any = f64::from_bits(patterns::pattern(random));
    random.weighted(&[(8, within), (1, 0.0), (1, 1.0), (1, -0.0), (1, 2.5), (1, any)])
}

/// Upstream's search as the engine answers it.
pub fn upstream_search(coefficients: &[f64], lent: &mut [f64], budget: usize) -> Search {
    let search = roots(coefficients, budget, lent);
    let refusal = u32::from(number_of(&search.found));
    Search { refusal, count: search.found.unwrap_or(0), budget: search.budget }
}

fn count(case: &Case, answer: &Answer, counts: &mut Counts) {
    const NAMES: [&str; 17] = [
        "0", "1", "2", "3", "4", "5", "6", "7", "8", "9", "10", "11", "12", "13", "14", "15",
        "above",
    ];
    counts.add("coefficients", NAMES[case.coefficients.len().min(MOST + 1)]);
    counts.add("roots", NAMES[answer.searches[0].0.count.min(MOST + 1)]);
    for (search, _) in &answer.searches {
        let outcome = match search.refusal {
            0 => "accepted",
            20 => "20",
            21 => "21",
            25 => "25",
            _ => "other",
        };
        counts.add("outcome", outcome);
        counts.add_if(search.refusal == 0 && search.budget == 0, "outcome", "just enough");
    }
    let value = answer.value.map_or(0.0, |number| number.0);
    counts.add_if(!value.is_finite(), "value", "not finite");
    counts.add_if(value.is_finite(), "value", "finite");
}

impl Subject for Roots {
    const NAME: &'static str = "roots";
    type Case = Case;
    type Answer = Answer;
    type Coverage = Counts;

    fn case(random: &mut Random) -> Case {
        let coefficients = coefficients(random);
        let mut left = AMPLE;
        let _ = upstream::roots(&coefficients, &mut left);
        let budgets = budgets(random, AMPLE - left);
        let rooms = [(90, BUFFER), (4, BUFFER + 1), (4, 40), (1, BUFFER - 1), (1, 0), (1, 2)];
        let room = random.weighted(&rooms);
        let coefficients = coefficients.into_iter().map(Number).collect();
        Case { coefficients, budgets, room, place: Number(place(random)) }
    }

    fn oracle(case: &Case, counts: &mut Counts) -> Answer {
        let answer = case.answer(upstream_search, upstream::evaluate);
        count(case, &answer, counts);
        answer
    }

    fn engine(case: &Case) -> Answer {
        case.answer(polynomials::roots, polynomials::evaluate)
    }

    fn shrink(case: Case, differs: impl Fn(&Case) -> bool) -> Case {
        let numbers = simpler::list(case.numbers(), |list| differs(&case.with(list.to_vec())));
        case.with(numbers)
    }
}
