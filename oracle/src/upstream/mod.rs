//! The upstream edits, compiled from their own source over the stand-in crates.

#[cfg(upstream)]
mod freeform;
#[cfg(upstream)]
include!(concat!(env!("OUT_DIR"), "/modules.rs"));

mod errors;

#[cfg(upstream)]
mod entry {
    use super::{modify, support};
    use cad_geom::Vec2;
    use cad_sketch::{Sketch, SketchError};

    type Result<T> = std::result::Result<T, SketchError>;

    pub fn trim(sketch: &mut Sketch, curve: usize, pick: Vec2) -> Result<()> {
        modify::trim(sketch, curve, pick)
    }

    pub fn split(sketch: &mut Sketch, curve: usize, pick: Vec2) -> Result<()> {
        modify::split(sketch, curve, pick)
    }

    pub fn extend(sketch: &mut Sketch, curve: usize, pick: Vec2) -> Result<()> {
        modify::extend(sketch, curve, pick)
    }

    pub fn roots(coefficients: &[f64], budget: &mut usize) -> Result<Vec<f64>> {
        support::roots_entry(coefficients, budget)
    }

    pub fn evaluate(coefficients: &[f64], t: f64) -> f64 {
        support::evaluate_entry(coefficients, t)
    }
}

/// The same entries where upstream's source was not there to be compiled.
#[cfg(not(upstream))]
mod entry {
    use cad_geom::Vec2;
    use cad_sketch::{Sketch, SketchError};

    type Result<T> = std::result::Result<T, SketchError>;
    const ABSENT: &str = "built without the upstream source: ask `upstream::PRESENT` first";

    pub fn trim(_: &mut Sketch, _: usize, _: Vec2) -> Result<()> {
        panic!("{ABSENT}")
    }

    pub fn split(_: &mut Sketch, _: usize, _: Vec2) -> Result<()> {
        panic!("{ABSENT}")
    }

    pub fn extend(_: &mut Sketch, _: usize, _: Vec2) -> Result<()> {
        panic!("{ABSENT}")
    }

    pub fn roots(_: &[f64], _: &mut usize) -> Result<Vec<f64>> {
        panic!("{ABSENT}")
    }

    pub fn evaluate(_: &[f64], _: f64) -> f64 {
        panic!("{ABSENT}")
    }
}

pub use entry::{evaluate, extend, roots, split, trim};
pub use errors::refusal_of;

/// Whether the upstream source was there when this was built.
pub const PRESENT: bool = cfg!(upstream);

/// For programs that are nothing without upstream: says so and ends in peace where it is absent.
pub fn present_or_skip(program: &str) {
    if !PRESENT {
        println!("{program}: the upstream source is absent, skipped");
        std::process::exit(0);
    }
}
