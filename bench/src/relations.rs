//! Looking for a relation that is not met, in drawings of 60 curves in which all are met, so that the
//! whole table is gone through.

use bench::timing::{measure, Times};
use cad_sketch::{first_unmet, Sketch};
use oracle::convert::to_sketch;
use oracle::drawing::{Drawing, Relation, MAX_RELATIONS};
use oracle::generate::bridges::{self, Size};
use oracle::generate::random::Random;
use oracle::{image, validity};
use std::hint::black_box;

const SAMPLES: usize = 8;

struct Sample {
    drawing: Drawing,
    image: Vec<u8>,
    counts: [u32; 3],
    sketch: Sketch,
}

/// A drawing of 60 curves with a full table of the relations that it meets, over and over.
fn sample(random: &mut Random) -> Option<Sample> {
    let mut drawing = bridges::drawing(random, Size::Bridge);
    let met = |relation: &Relation| {
        let relations = vec![*relation];
        first_unmet(&to_sketch(&Drawing { relations, ..drawing.clone() })).is_none()
    };
    let kept: Vec<Relation> = drawing.relations.iter().copied().filter(met).collect();
    if kept.len() < 10 {
        return None;
    }
    drawing.relations = kept.iter().cycle().take(MAX_RELATIONS).copied().collect();
    let tables = [drawing.points.len(), drawing.curves.len(), drawing.relations.len()];
    let (image, sketch) = (image::to_bytes(&drawing), to_sketch(&drawing));
    Some(Sample { image, counts: tables.map(|count| count as u32), sketch, drawing })
}

fn samples() -> Vec<Sample> {
    let mut random = Random::new(1);
    std::iter::repeat_with(|| sample(&mut random)).flatten().take(SAMPLES).collect()
}

/// Both sides over the samples in turn.
fn both(engine: impl Fn(&Sample), oracle: impl Fn(&Sample)) -> Times {
    let samples = samples();
    let (mut engine_at, mut oracle_at) = (0, 0);
    let next = |at: &mut usize| {
        *at = (*at + 1) % SAMPLES;
        &samples[*at]
    };
    measure(|| engine(next(&mut engine_at)), || oracle(next(&mut oracle_at)))
}

fn searched(sample: &Sample) {
    let (image, next) = (black_box(&sample.image), sample.drawing.next_id);
    black_box(engine::relations_test(image, next, sample.counts));
}

fn tested(sample: &Sample) {
    let (image, next) = (black_box(&sample.image), sample.drawing.next_id);
    black_box(engine::sketch_test(image, next, sample.counts));
}

pub fn run() {
    println!("60 curves, 256 relations");
    let whole = both(searched, |sample| {
        let drawing = image::read(black_box(&sample.image)).expect("good");
        black_box(validity::check(&drawing).is_ok());
        black_box(first_unmet(&to_sketch(&drawing)));
    });
    whole.print("  read, test, relations met");
    // The two calls of the engine take turns, so that a change of the clock shows in both.
    let calls = both(searched, tested);
    let engine = calls.engine - calls.oracle;
    let converted = both(
        |_| {},
        |sample| {
            black_box(first_unmet(&to_sketch(black_box(&sample.drawing))));
        },
    );
    Times { engine, oracle: converted.oracle }.print("  relations met: less read and test");
    let bare = both(
        |_| {},
        |sample| {
            black_box(first_unmet(black_box(&sample.sketch)));
        },
    );
    Times { engine, oracle: bare.oracle }.print("  the same, the Rust's places known");
}
