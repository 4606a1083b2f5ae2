//! What is asked of one number or of two: magnitude, sign, the larger, order, turn.

use crate::counts::Counts;
use crate::number::Number;
use crate::simpler;
use crate::subject::Subject;
use engine::numbers;
use oracle::generate::{patterns, random::Random};
use std::cmp::Ordering;

pub struct NumberPairs;

#[derive(Debug)]
pub struct Case {
    a: Number,
    b: Number,
}

impl Case {
    /// A NaN counts as having no sign, so that it stands last in the total order.
    fn new(a: f64, b: f64) -> Case {
        let plain = |x: f64| Number(if x.is_nan() { f64::NAN } else { x });
        Case { a: plain(a), b: plain(b) }
    }
}

#[derive(Debug, PartialEq)]
pub struct Answer {
    abs: Number,
    signum: Number,
    max: Number,
    before: bool,
    turn: Number,
}

/// Of two zeros the larger may be either, so its sign is taken off.
fn larger(max: f64) -> Number {
    Number(max + 0.0)
}

fn quarter(turn: f64) -> &'static str {
    match turn {
        0.0..1.0 => "0 to 1",
        1.0..2.0 => "1 to 2",
        2.0..3.0 => "2 to 3",
        3.0..4.0 => "3 to 4",
        _ => "none",
    }
}

impl Subject for NumberPairs {
    const NAME: &'static str = "number pairs";
    type Case = Case;
    type Answer = Answer;
    type Coverage = Counts;

    fn case(random: &mut Random) -> Case {
        let a = f64::from_bits(patterns::pattern(random));
        let unlike = f64::from_bits(patterns::pattern(random));
        let other = a * random.pick(&[1.0, -1.0, 1e-15, 0.5]) * (1.0 + random.small_offset());
        Case::new(a, random.pick(&[unlike, other, a, -a]))
    }

    fn oracle(case: &Case, counts: &mut Counts) -> Answer {
        let (a, b) = (case.a.0, case.b.0);
        let before = a.total_cmp(&b) == Ordering::Less;
        counts.add("order", if before { "before" } else { "not before" });
        counts.add_if(a == b && a.to_bits() != b.to_bits(), "order", "zeros");
        counts.add_if(a.is_nan() || b.is_nan(), "order", "NaN");
        let turn = cad_geom::turn(a, b);
        counts.add("turn", quarter(turn));
        let (abs, signum) = (Number(a.abs()), Number(a.signum()));
        Answer { abs, signum, max: larger(a.max(b)), before, turn: Number(turn) }
    }

    fn engine(case: &Case) -> Answer {
        let (a, b) = (case.a.0, case.b.0);
        Answer {
            abs: Number(numbers::abs(a)),
            signum: Number(numbers::signum(a)),
            max: larger(numbers::max(a, b)),
            before: numbers::total_before(a, b),
            turn: Number(numbers::turn(a, b)),
        }
    }

    fn shrink(case: Case, differs: impl Fn(&Case) -> bool) -> Case {
        let pair = [case.a.0, case.b.0];
        let [a, b] = simpler::numbers(pair, |[a, b]| differs(&Case::new(*a, *b)));
        Case::new(a, b)
    }
}
