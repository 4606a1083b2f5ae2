//! Tables a few records short of their limits, and ids up against theirs.

use super::random::Random;
use super::scene::raise_ids;
use crate::drawing::*;
use crate::examples::{curve, point};

/// Leaves room for so few records that one of an edit's additions may not find it.
pub fn crowd(random: &mut Random, drawing: &mut Drawing) {
    let [points, curves, relations, ids] = match random.pick(&[0, 1, 2, 2, 3, 4]) {
        4 => std::array::from_fn(|_| random.one_in(2)),
        only => std::array::from_fn(|table| table == only),
    };
    if curves || relations {
        let left = if curves { random.below(5) } else { MAX_CURVES };
        fill_curves(drawing, left);
    }
    if points {
        fill_points(drawing, random.below(5));
    }
    if relations {
        fill_relations(random, drawing);
    }
    if ids {
        let spare = random.below(8) as Id;
        let room = Id::MAX - drawing.next_id;
        match random.below(2) {
            0 => drawing.next_id += room.saturating_sub(spare),
            _ => raise_ids(drawing, room.saturating_sub(spare)),
        }
    }
}

fn fresh(drawing: &mut Drawing) -> Id {
    drawing.next_id += 1;
    drawing.next_id - 1
}

/// A position out of the way of everything else.
const CORNER: (f64, f64) = (-876_543.0, 912_345.0);

fn fill_points(drawing: &mut Drawing, left: usize) {
    while drawing.points.len() + left < MAX_POINTS {
        let id = fresh(drawing);
        drawing.points.push(point(id, CORNER.0, CORNER.1));
    }
}

/// Short lines and small circles, all about the corner: at least one of each.
fn fill_curves(drawing: &mut Drawing, left: usize) {
    if drawing.points.len() + 2 > MAX_POINTS || drawing.curves.len() + 2 > MAX_CURVES {
        return;
    }
    let (a, b) = (fresh(drawing), fresh(drawing));
    drawing.points.push(point(a, CORNER.0, CORNER.1));
    drawing.points.push(point(b, CORNER.0 + 1.0, CORNER.1));
    let least = drawing.curves.len() + 2;
    while drawing.curves.len() < least || drawing.curves.len() + left < MAX_CURVES {
        let line = drawing.curves.len().is_multiple_of(2);
        let kind =
            if line { CurveKind::Line { a, b } } else { CurveKind::Circle { c: a, radius: 0.5 } };
        let id = fresh(drawing);
        drawing.curves.push(curve(id, kind));
    }
}

/// Relations between the last curves, which are met, or copies of one that is there.
fn fill_relations(random: &mut Random, drawing: &mut Drawing) {
    let left = random.pick(&[0, 0, 0, 1, 2, 3, 4, 5, 6]);
    let Some(last) = drawing.curves.last() else { return };
    let filler = match last.kind {
        CurveKind::Line { a, b } => Relation::Distance { p: a, q: b, value: 1.0 },
        CurveKind::Circle { .. } => Relation::ArcSweep { round: last.id, value: 4.0 },
        _ => return,
    };
    let filler = match drawing.relations.last() {
        Some(held) if random.one_in(4) => *held,
        _ => filler,
    };
    let wanted = MAX_RELATIONS - left;
    if drawing.relations.len() < wanted {
        let at = random.below(drawing.relations.len() + 1);
        let missing = wanted - drawing.relations.len();
        drawing.relations.splice(at..at, std::iter::repeat_n(filler, missing));
    }
}
