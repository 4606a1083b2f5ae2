//! Crossings of two shapes, and the projection of a point. Both sides start from plain numbers.

use crate::samples::Samples;
use bench::timing::{measure, Times};
use cad_geom::Vec2;
use oracle::figure::{Figure, Kind};
use oracle::generate::random::Random;
use std::hint::black_box;

pub fn run() {
    println!("shapes");
    crossings(Kind::Line, Kind::Line).print_fine("  crossings of two lines");
    crossings(Kind::Line, Kind::Circle).print_fine("  crossings of a line and a circle");
    crossings(Kind::Circle, Kind::Circle).print_fine("  crossings of two circles");
    projection(Kind::Line).print_fine("  projection to a line");
    projection(Kind::Circle).print_fine("  projection to a circle");
}

fn position(random: &mut Random) -> Vec2 {
    Vec2::new(random.unit() * 12.0, random.unit() * 12.0)
}

/// Most of them cross each other.
fn figure(random: &mut Random, kind: Kind) -> Figure {
    match kind {
        Kind::Line => Figure::line(position(random), position(random)),
        Kind::Circle => Figure::circle(position(random), 2.0 + random.unit() * 6.0),
        Kind::Arc => Figure::arc(position(random), position(random), position(random)),
    }
}

fn crossings(first: Kind, second: Kind) -> Times {
    let pair = |random: &mut Random| (figure(random, first), figure(random, second));
    let (mut engine_inputs, mut oracle_inputs) = (Samples::new(pair), Samples::new(pair));
    let mut out = [0.0; 4];
    measure(
        || {
            let (one, two) = black_box(engine_inputs.next());
            let (kind, other) = (one.kind.number(), two.kind.number());
            let count =
                engine::shapes::crossings(kind, &one.numbers, other, &two.numbers, &mut out);
            black_box((count, &out));
        },
        || {
            let (one, two) = black_box(oracle_inputs.next());
            black_box(cad_sketch::intersections(&one.shape(), &two.shape()));
        },
    )
}

fn projection(kind: Kind) -> Times {
    let sample = |random: &mut Random| (figure(random, kind), position(random));
    let (mut engine_inputs, mut oracle_inputs) = (Samples::new(sample), Samples::new(sample));
    let mut out = [0.0; 2];
    measure(
        || {
            let (figure, point) = black_box(engine_inputs.next());
            let kind = figure.kind.number();
            engine::shapes::project(kind, &figure.numbers, point.x, point.y, &mut out);
            black_box(&out);
        },
        || {
            let (figure, point) = black_box(oracle_inputs.next());
            black_box(figure.shape().project(*point));
        },
    )
}
