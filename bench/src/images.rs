//! Reading an image, and writing it back.

use crate::inputs::Inputs;
use bench::timing::{Rounds, Times};
use oracle::drawing::Drawing;
use oracle::generate::bridges::Size;
use oracle::image;
use oracle::refusal::Refusal;
use std::hint::black_box;

pub fn run(name: &str, size: Size) {
    println!("{name}, {} bytes on average", Inputs::new(size).mean_bytes());
    let rounds = Rounds::new([
        &mut engine_read(size),
        &mut oracle_read(size),
        &mut engine_copy(size),
        &mut oracle_copy(size, image::write),
        &mut oracle_copy(size, image::encode),
    ]);
    let times = |engine: fn(&[f64; 5]) -> f64, oracle: fn(&[f64; 5]) -> f64| Times {
        engine: rounds.median(engine),
        oracle: rounds.median(oracle),
    };
    times(|t| t[0], |t| t[1]).print("  read");
    times(|t| t[2], |t| t[3]).print("  read and write");
    times(|t| t[2] - t[0], |t| t[3] - t[1]).print("  write: the difference");
    // Rust's types would let its writer trust what the reader gave.
    times(|t| t[2], |t| t[4]).print("  read and write, Rust's writer untested");
}

pub fn engine_read(size: Size) -> impl FnMut() {
    let mut inputs = Inputs::new(size);
    move || {
        black_box(engine::image_test(black_box(&inputs.next().image)));
    }
}

fn oracle_read(size: Size) -> impl FnMut() {
    let mut inputs = Inputs::new(size);
    move || {
        black_box(image::read(black_box(&inputs.next().image)).is_ok());
    }
}

fn engine_copy(size: Size) -> impl FnMut() {
    let mut inputs = Inputs::new(size);
    let mut out = vec![0; image::MAX_SIZE];
    move || {
        let image = &inputs.next().image;
        black_box(engine::image_copy(black_box(image), black_box(&mut out)));
    }
}

type Write = fn(&Drawing, &mut [u8]) -> Result<usize, Refusal>;

fn oracle_copy(size: Size, write: Write) -> impl FnMut() {
    let mut inputs = Inputs::new(size);
    let mut out = vec![0; image::MAX_SIZE];
    move || {
        let drawing = image::read(black_box(&inputs.next().image)).expect("good");
        black_box(write(&drawing, black_box(&mut out)).is_ok());
    }
}
