//! Testing a sketch that is handed in as a value.

use crate::images;
use crate::inputs::Inputs;
use bench::timing::{Rounds, Times};
use oracle::generate::bridges::Size;
use oracle::validity;
use std::hint::black_box;

pub fn run(name: &str, size: Size) {
    println!("{name}");
    let (mut engine_inputs, mut oracle_inputs) = (Inputs::new(size), Inputs::new(size));
    let rounds = Rounds::new([
        &mut images::engine_read(size),
        &mut || {
            let sample = engine_inputs.next();
            let drawing = &sample.drawing;
            let tables = [drawing.points.len(), drawing.curves.len(), drawing.relations.len()];
            let counts = tables.map(|count| count as u32);
            black_box(engine::sketch_test(black_box(&sample.image), drawing.next_id, counts));
        },
        &mut || {
            black_box(validity::check(black_box(&oracle_inputs.next().drawing)).is_ok());
        },
    ]);
    // The engine's call reads the image first, and hands the sketch over as a copy; the copy is counted.
    let test = Times { engine: rounds.median(|t| t[1] - t[0]), oracle: rounds.median(|t| t[2]) };
    test.print("  test");
}
