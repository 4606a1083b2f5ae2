//! Crossings of two shapes: how many, where, and what a lent buffer holds behind them.

use crate::counts::Counts;
use crate::number::Number;
use crate::simpler;
use crate::subject::Subject;
use engine::shapes;
use oracle::figure::{Figure, Kind};
use oracle::generate::{figures, random::Random};

pub struct Crossings;

#[derive(Debug)]
pub struct Case {
    first: Figure,
    second: Figure,
}

#[derive(Debug, PartialEq)]
pub struct Answer {
    count: u32,
    buffer: [Number; 4],
}

/// What the buffer holds before a call.
const FILL: [f64; 4] = [-7.25, 11.5, -0.0, 3e300];

fn any_kind(random: &mut Random) -> Kind {
    let round = random.pick(&[Kind::Arc, Kind::Circle]);
    random.pick(&[Kind::Line, round])
}

impl Case {
    fn row(&self) -> &'static str {
        match (self.first.kind, self.second.kind) {
            (Kind::Line, Kind::Line) => "line and line",
            (Kind::Line, _) => "line and round",
            (_, Kind::Line) => "round and line",
            (_, _) => "round and round",
        }
    }
}

impl Subject for Crossings {
    const NAME: &'static str = "crossings";
    type Case = Case;
    type Answer = Answer;
    type Coverage = Counts;

    fn case(random: &mut Random) -> Case {
        let (first, second) = (any_kind(random), any_kind(random));
        let (first, second) = figures::pair(random, first, second);
        Case { first, second }
    }

    fn oracle(case: &Case, counts: &mut Counts) -> Answer {
        let crossings = cad_sketch::intersections(&case.first.shape(), &case.second.shape());
        let mut buffer = FILL;
        for (slots, point) in buffer.chunks_mut(2).zip(&crossings) {
            slots.copy_from_slice(&[point.x, point.y]);
        }
        counts.add(case.row(), ["none", "one", "two"][crossings.len()]);
        counts.add_if(buffer.iter().any(|number| number.is_nan()), case.row(), "NaN");
        Answer { count: crossings.len() as u32, buffer: buffer.map(Number) }
    }

    fn engine(case: &Case) -> Answer {
        let (first, second) = (&case.first, &case.second);
        let mut buffer = FILL;
        let count = shapes::crossings(
            first.kind.number(),
            &first.numbers,
            second.kind.number(),
            &second.numbers,
            &mut buffer,
        );
        Answer { count, buffer: buffer.map(Number) }
    }

    fn shrink(case: Case, differs: impl Fn(&Case) -> bool) -> Case {
        let of = |numbers: &[f64; 12]| {
            let half = |from: usize| std::array::from_fn(|at| numbers[from + at]);
            let first = Figure { kind: case.first.kind, numbers: half(0) };
            Case { first, second: Figure { kind: case.second.kind, numbers: half(6) } }
        };
        let both = [case.first.numbers, case.second.numbers];
        let numbers = std::array::from_fn(|at| both[at / 6][at % 6]);
        of(&simpler::numbers(numbers, |numbers| differs(&of(numbers))))
    }
}
