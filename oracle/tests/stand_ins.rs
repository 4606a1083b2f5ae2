//! Where a stand-in repeats upstream, or upstream relies on a range of numbers.
#![cfg(upstream)]

use cad_geom::{evaluate, turn};
use oracle::generate::{polynomials, random::Random};
use oracle::upstream;

#[test]
fn both_evaluations_are_one() {
    let mut random = Random::new(31);
    for _ in 0..20_000 {
        let c = polynomials::polynomial(&mut random).coefficients;
        if (1..=15).contains(&c.len()) {
            let t = random.unit();
            let (ours, theirs) = (evaluate(&c, t), upstream::evaluate(&c, t));
            assert!(ours.to_bits() == theirs.to_bits() || (ours.is_nan() && theirs.is_nan()));
        }
    }
}

#[test]
fn the_remainder_of_a_difference_of_turns_adds_a_turn_to_a_negative_one() {
    let mut random = Random::new(32);
    let mut direction = || turn(random.coordinate(), random.coordinate());
    for _ in 0..20_000 {
        let difference = direction() - direction();
        let forward = if difference < 0.0 { difference + 4.0 } else { difference };
        assert_eq!(difference.rem_euclid(4.0).to_bits(), forward.to_bits());
    }
    assert_eq!((-0.0_f64).rem_euclid(4.0).to_bits(), (-0.0_f64).to_bits());
}
