//! The root search, by the number of coefficients.

use crate::samples::Samples;
use bench::timing::{measure, Times};
use oracle::generate::random::Random;
use oracle::roots::BUFFER;
use oracle::upstream;
use std::hint::black_box;

const BUDGET: usize = 1_000_000;

pub fn run() {
    if !upstream::PRESENT {
        println!("roots: the upstream source is absent, skipped");
        return;
    }
    println!("roots");
    for coefficients in [2, 4, 8, 15] {
        search(coefficients).print(&format!("  of {coefficients} coefficients"));
    }
}

/// Upstream's own search, which gives a vector, beside the engine's, which fills a lent buffer.
fn search(coefficients: usize) -> Times {
    let sample = |random: &mut Random| -> Vec<f64> {
        (0..coefficients).map(|_| random.unit() - 0.5).collect()
    };
    let (mut engine_inputs, mut oracle_inputs) = (Samples::new(sample), Samples::new(sample));
    let mut found = [0.0; BUFFER];
    measure(
        || {
            let search = engine::polynomials::roots(
                black_box(engine_inputs.next()),
                black_box(&mut found),
                BUDGET,
            );
            black_box((search, &found));
        },
        || {
            let mut budget = BUDGET;
            black_box(upstream::roots(black_box(oracle_inputs.next()), &mut budget).is_ok());
        },
    )
}
