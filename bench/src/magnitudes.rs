//! The largest magnitude of a list, by its length.

use crate::samples::Samples;
use bench::timing::{measure, Times};
use oracle::generate::random::Random;
use oracle::magnitude::largest_magnitude;
use std::hint::black_box;

pub fn run() {
    println!("largest magnitude");
    for numbers in [2, 4, 8, 15, 40, 1000] {
        pass(numbers).print_fine(&format!("  of {numbers} numbers"));
    }
}

/// One pass of the engine's beside the plain reading in two.
fn pass(numbers: usize) -> Times {
    let sample =
        |random: &mut Random| -> Vec<f64> { (0..numbers).map(|_| random.unit() - 0.5).collect() };
    let (mut engine_inputs, mut oracle_inputs) = (Samples::new(sample), Samples::new(sample));
    let mut largest = [0.0];
    measure(
        || {
            let list = black_box(engine_inputs.next());
            black_box(engine::polynomials::largest_magnitude(list, black_box(&mut largest)));
        },
        || {
            black_box(largest_magnitude(black_box(oracle_inputs.next())));
        },
    )
}
