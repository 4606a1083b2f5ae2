//! Edits that a visitor might try.

use crate::random::Random;
use mulkefi::{Drawing, Edit, Kind, Operation, Stroke};

/// Mostly a pick on some curve of the drawing, now and then one that is none.
pub fn random(random: &mut Random, drawing: &Drawing) -> Edit {
    let operation = match random.below(6) {
        0 => Operation::Trim,
        1 | 2 => Operation::Extend,
        _ => Operation::Split,
    };
    let curve = &drawing.curves[random.below(drawing.curves.len())];
    let positions = Stroke::of(drawing, curve).map_or(Vec::new(), |stroke| stroke.positions());
    let Some(last) = positions.last().copied() else {
        return Edit { operation, curve: curve.id, x: f64::NAN, y: 0.0 };
    };
    let position = match curve.kind {
        // A finger next to an end, or anywhere along a line.
        Kind::Line { .. } if operation == Operation::Extend => {
            positions[random.below(positions.len())]
        }
        Kind::Line { .. } => positions[0].towards(last, random.unit()),
        _ => positions[random.below(positions.len())],
    };
    let (x, y) = (position.x + random.unit() - 0.5, position.y + random.unit() - 0.5);
    match random.below(12) {
        0 => Edit { operation, curve: drawing.next, x, y },
        1 => Edit { operation, curve: curve.id, x: x * 1e6, y },
        _ => Edit { operation, curve: curve.id, x, y },
    }
}
