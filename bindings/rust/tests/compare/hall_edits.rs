//! Edits that a desk goes on accepting, with others between them.

use oracle::drawing::{Curve, CurveKind, Drawing, Id};
use oracle::families::Families;
use oracle::generate::{edits, random::Random, rings};
use oracle::message::{Edit, Operation};

/// With so many curves a desk is asked to remove some.
const MANY: usize = 100;

/// Mostly a split in a line or an arc, or a trim of one; else any edit, also one that is refused.
pub fn edit(random: &mut Random, drawing: &Drawing, families: &Families) -> Edit {
    match random.below(8) {
        0 => edits::edit(random, drawing),
        1 | 2 => rings::edit(random, drawing, families),
        _ => cut(random, drawing).unwrap_or_else(|| edits::edit(random, drawing)),
    }
}

/// An edit inside of a line or an arc, if there is one.
fn cut(random: &mut Random, drawing: &Drawing) -> Option<Edit> {
    let lines = drawing.curves.iter().filter_map(|curve| Some((curve.id, ends(curve)?)));
    let lines: Vec<(Id, [Id; 2])> = lines.collect();
    if lines.is_empty() {
        return None;
    }
    let (curve, ends) = random.pick(&lines);
    let [start, end] = ends.map(|id| drawing.point(id));
    let ((start, end), share) = ((start?, end?), 0.1 + 0.8 * random.unit());
    let (x, y) = (start.x + (end.x - start.x) * share, start.y + (end.y - start.y) * share);
    let trims = if drawing.curves.len() > MANY { 6 } else { 1 };
    let operation = random.weighted(&[(5, Operation::Split), (trims, Operation::Trim)]);
    Some(Edit { operation, curve, x, y })
}

fn ends(curve: &Curve) -> Option<[Id; 2]> {
    match curve.kind {
        CurveKind::Line { a, b } | CurveKind::Arc { a, b, .. } => Some([a, b]),
        _ => None,
    }
}
