//! Square roots, against that of the machine, which IEEE 754 rounds once.

use crate::counts::Counts;
use crate::number::Number;
use crate::simpler;
use crate::subject::Subject;
use engine::numbers;
use oracle::generate::{patterns, random::Random};
use std::num::FpCategory;

pub struct SquareRoots;

fn sort(x: f64) -> &'static str {
    match x.classify() {
        FpCategory::Nan => "NaN",
        FpCategory::Zero => "zero",
        FpCategory::Infinite => "infinite",
        FpCategory::Subnormal => "subnormal",
        FpCategory::Normal => "normal",
    }
}

impl Subject for SquareRoots {
    const NAME: &'static str = "square roots";
    type Case = Number;
    type Answer = Number;
    type Coverage = Counts;

    fn case(random: &mut Random) -> Number {
        Number(f64::from_bits(patterns::pattern(random)))
    }

    fn oracle(case: &Number, counts: &mut Counts) -> Number {
        counts.add(if case.0.is_sign_negative() { "sign set" } else { "sign clear" }, sort(case.0));
        let root = case.0.sqrt();
        counts.add_if(root * root == case.0, "squares back", sort(case.0));
        Number(root)
    }

    fn engine(case: &Number) -> Number {
        Number(numbers::sqrt(case.0))
    }

    fn shrink(case: Number, differs: impl Fn(&Number) -> bool) -> Number {
        let [x] = simpler::numbers([case.0], |[x]| differs(&Number(*x)));
        Number(x)
    }
}
