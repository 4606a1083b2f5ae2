//! Edits that go on being accepted, hundreds of them: splits while there are few curves, trims once there
//! are many, and others between.

use super::random::Random;
use super::{bridges, edits, rings};
use crate::convert::to_sketch;
use crate::drawing::Drawing;
use crate::message::{Edit, Operation};

/// About as many curves as are left standing.
const STANDING: usize = 14;

/// Lines, arcs and circles that cross each other, without a freeform curve, beside which nothing is
/// trimmed.
pub fn drawing(random: &mut Random) -> Drawing {
    loop {
        let curves = 3 + random.below(STANDING);
        let drawing = match random.below(4) {
            0 => bridges::with_all_met(random, curves, 2, false),
            _ => rings::drawing(random),
        };
        let freeform = drawing.curves.iter().any(|curve| curve.kind.is_freeform());
        if !freeform && (1..=2 * STANDING).contains(&drawing.curves.len()) {
            return drawing;
        }
    }
}

/// Mostly a split of a curve that stands, or a trim where many do, somewhere on it; else any edit.
pub fn edit(random: &mut Random, drawing: &Drawing) -> Edit {
    let standing = drawing.curves.len();
    if standing == 0 || random.one_in(4) {
        return edits::edit(random, drawing);
    }
    let trims = random.below(2 * STANDING) < standing && standing > 2;
    let operation = if trims { Operation::Trim } else { Operation::Split };
    let place = random.below(standing);
    let curve = &drawing.curves[place];
    match to_sketch(drawing).shape(place) {
        None => edits::edit_by(random, drawing, operation),
        Some(shape) => {
            let pick = shape.point(shape.range().1 * (0.1 + 0.8 * random.unit()));
            Edit { operation, curve: curve.id, x: pick.x, y: pick.y }
        }
    }
}
