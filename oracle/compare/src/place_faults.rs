//! Faults in the place that comes with 13 and 19, to be planted into one side of a comparison.

use oracle::drawing::{CurveKind, Drawing, Id, Relation};
use oracle::edit::Refused;
use oracle::message::Edit;
use oracle::refusal::Refusal;
use oracle::unmet::Unmet;

/// A wrong place for an edit that is refused for relations not met.
pub trait PlaceFault {
    fn place(drawing: &Drawing, edit: &Edit, unmet: &Unmet) -> usize;
}

/// The refusal of an edit, with a fault's place where one comes with it.
pub fn with_fault<F: PlaceFault>(drawing: &Drawing, edit: &Edit, refused: Refused) -> Refused {
    if refused.place.is_none() {
        return refused;
    }
    let place = Unmet::of(drawing, edit).map(|unmet| F::place(drawing, edit, &unmet));
    Refused { place, ..refused }
}

/// The first relation that is not met, which is no fault.
pub struct First;

impl PlaceFault for First {
    fn place(_: &Drawing, _: &Edit, unmet: &Unmet) -> usize {
        unmet.places[0]
    }
}

/// The last relation that is not met.
pub struct Last;

impl PlaceFault for Last {
    fn place(_: &Drawing, _: &Edit, unmet: &Unmet) -> usize {
        unmet.places[unmet.places.len() - 1]
    }
}

/// Places counted from 1.
pub struct CountedFromOne;

impl PlaceFault for CountedFromOne {
    fn place(_: &Drawing, _: &Edit, unmet: &Unmet) -> usize {
        unmet.places[0] + 1
    }
}

/// No place beyond the table as it stands.
pub struct WithinPresentTable;

impl PlaceFault for WithinPresentTable {
    fn place(_: &Drawing, _: &Edit, unmet: &Unmet) -> usize {
        unmet.places[0].min(unmet.present.saturating_sub(1))
    }
}

/// A search of the drawing as it stands for 19 too, where all relations of it are met.
pub struct OfDrawingBefore;

impl PlaceFault for OfDrawingBefore {
    fn place(_: &Drawing, _: &Edit, unmet: &Unmet) -> usize {
        match unmet.refusal {
            Refusal::Conflict => 0,
            _ => unmet.places[0],
        }
    }
}

/// A search of those relations alone that name the end to move.
pub struct OfMovedEnd;

impl PlaceFault for OfMovedEnd {
    fn place(drawing: &Drawing, edit: &Edit, unmet: &Unmet) -> usize {
        let moved = moved_end(drawing, edit);
        // The pin names the end.
        let names = |place: &usize| {
            drawing.relations.get(*place).is_none_or(|relation| names_point(relation, moved))
        };
        unmet.places.iter().copied().find(names).unwrap_or(0)
    }
}

/// The end of the target that is nearer to the pick, the second where both are as near.
fn moved_end(drawing: &Drawing, edit: &Edit) -> Id {
    let Some(CurveKind::Line { a, b }) = drawing.curve(edit.curve).map(|curve| curve.kind) else {
        unreachable!("only an extend of a line is refused for its relations")
    };
    let [to_a, to_b] = [a, b].map(|end| {
        let point = drawing.point(end).expect("a good drawing has its curves' points");
        (point.x - edit.x).hypot(point.y - edit.y)
    });
    if to_b <= to_a {
        b
    } else {
        a
    }
}

fn names_point(relation: &Relation, point: Id) -> bool {
    match *relation {
        Relation::Coincident { p, q } | Relation::Distance { p, q, .. } => [p, q].contains(&point),
        Relation::PointOnCurve { p, .. } | Relation::Midpoint { p, .. } => p == point,
        _ => false,
    }
}

/// The refusal's number without its place.
pub struct Dropped;

impl PlaceFault for Dropped {
    fn place(_: &Drawing, _: &Edit, _: &Unmet) -> usize {
        0
    }
}
