//! One edit of a bridge: the engine from image to image and by its typed call, beside the Rust with the
//! same tests and beside its bare edit.

use bench::bridge::{samples, Sample, SIZES, WORKS};
use bench::timing::medians_in_turn;
use engine::edits::{repeated, typed_repeated};
use oracle::upstream;
use std::hint::black_box;

/// Edits in one timed call, so that its one test or reading of the image does not show.
const REPEATS: u32 = 128;

pub fn run() {
    if !upstream::PRESENT {
        return println!("edits: the upstream source is absent, skipped");
    }
    println!(
        "{:<32} {:>9} {:>9} {:>9} {:>7} {:>9} {:>7}",
        "edits", "engine", "typed", "tested", "ratio", "bare", "ratio"
    );
    for work in WORKS {
        for curves in SIZES {
            let samples = samples(curves, work);
            let name = format!("  {}, {curves} curves", work.name);
            print_line(&name, times(&samples));
        }
    }
}

fn print_line(name: &str, [engine, typed, tested, bare]: [f64; 4]) {
    let (to_tested, to_bare) = (engine / tested, engine / bare);
    let tested = format!("{tested:>9.0} {to_tested:>7.2}");
    println!("{name:<32} {engine:>9.0} {typed:>9.0} {tested} {bare:>9.0} {to_bare:>7.2}");
}

/// Nanoseconds an edit by side, on average over the samples.
fn times(samples: &[Sample]) -> [f64; 4] {
    let edits = samples.len() as f64 * f64::from(REPEATS);
    let mut sums = [0.0; 4];
    for sample in samples {
        for (sum, time) in sums.iter_mut().zip(times_of(sample)) {
            *sum += time / edits;
        }
    }
    sums
}

fn times_of(sample: &Sample) -> [f64; 4] {
    medians_in_turn([
        &mut || engine(sample, repeated),
        &mut || engine(sample, typed_repeated),
        &mut || {
            for _ in 0..REPEATS {
                black_box(black_box(sample).tested());
            }
        },
        &mut || {
            for _ in 0..REPEATS {
                black_box(black_box(sample).bare());
            }
        },
    ])
}

fn engine(sample: &Sample, repeated: impl Fn(u32, &[u8], u32, f64, f64, u32) -> u32) {
    let call = black_box(&sample.call);
    let oracle::call::Call { operation, image, curve, x, y } = call;
    let sum = repeated(*operation, image, *curve, *x, *y, REPEATS);
    assert_eq!(sum, sample.checksum.wrapping_mul(REPEATS), "the engine does the same edit");
}
