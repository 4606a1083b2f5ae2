//! Square roots.

use crate::samples::Samples;
use bench::timing::measure;
use oracle::generate::random::Random;
use std::hint::black_box;

pub fn run() {
    println!("numbers");
    let any = |random: &mut Random| random.unit() * 1e6;
    let (mut engine_inputs, mut oracle_inputs) = (Samples::new(any), Samples::new(any));
    let roots = measure(
        || {
            black_box(engine::numbers::sqrt(black_box(*engine_inputs.next())));
        },
        || {
            black_box(black_box(*oracle_inputs.next()).sqrt());
        },
    );
    roots.print_fine("  square root");
}
