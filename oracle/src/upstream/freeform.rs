//! What the edits call for freeform curves. A freeform target, and a freeform curve beside one
//! that is trimmed, are turned away before upstream is asked.

use cad_geom::Vec2;
use cad_sketch::{Sketch, SketchError};

pub(super) fn analytic_cut_points(_: &Sketch, _: usize) -> Vec<(Vec2, usize)> {
    Vec::new()
}

pub(super) fn trim_or_break(
    _: &mut Sketch,
    _: usize,
    _: Vec2,
    _: bool,
    _: &str,
) -> Result<(), SketchError> {
    unreachable!("a freeform target was turned away before")
}

pub(super) fn break_at_points(
    _: &mut Sketch,
    _: usize,
    _: &[Vec2],
    _: &str,
) -> Result<(), SketchError> {
    unreachable!("a freeform target was turned away before")
}
