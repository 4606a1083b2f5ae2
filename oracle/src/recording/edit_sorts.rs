//! The sort of an edit's call, so that some of each sort can be chosen.

use crate::call::Call;
use crate::drawing::*;
use crate::edit::Refused;
use crate::image;
use crate::refusal::Refusal;
use crate::unmet::Unmet;

/// Operation, kind of target, outcome, and a detail: the kind of the first relation that is not met and
/// whether it is one of several, the tables that are nearly full, what an accepted edit did to the size
/// of each table, what it pinned an end to.
pub type Sort = (u32, u8, u8, [usize; 3], u8);

/// Images of most sorts are at most this large.
const SMALL: usize = 450;
/// Room for one full table.
const LARGE: usize = 12_500;

/// The sort of a call, how many of that sort are recorded, and how large their images may be.
pub fn sort(call: &Call) -> (Sort, usize, usize) {
    let (operation, outcome) = (call.operation.min(4), call.outcome());
    let Ok(before) = image::read(&call.image) else {
        let number = outcome.map_or_else(|refused| refused.refusal.number(), |_| 0);
        return ((0, 0, number, [0; 3], 0), 3, SMALL);
    };
    let kind = before.curve(call.curve).map_or(0, kind_code);
    match outcome {
        Err(Refused { refusal: Refusal::TableFull, .. }) => {
            ((operation, kind, 22, nearly_full(&before), 0), 1, LARGE)
        }
        Err(Refused { refusal, place }) => {
            let unmet = place.map_or(0, |place| relation_code(&before, place));
            let several = Unmet::of_call(call).is_some_and(|unmet| unmet.is_several());
            let wanted = match refusal.number() {
                6..=9 => 1,
                12 | 14..=18 => 8,
                _ => 3,
            };
            let detail = [usize::from(several), 0, 0];
            ((operation, kind, refusal.number(), detail, unmet), wanted, SMALL)
        }
        Ok((after, _)) => {
            let (was, is) = (sizes(&before), sizes(&after));
            let changes =
                std::array::from_fn(|table| 9 + is[table] - was[table].min(9 + is[table]));
            let pinned = if operation == 3 { pinned_to(&after) } else { 0 };
            ((operation, kind, 0, changes, pinned), if operation == 3 { 5 } else { 2 }, SMALL)
        }
    }
}

/// The kind of a call's target, 0 where there is no such curve; none where there is no drawing.
pub fn kind_of_target(call: &Call) -> Option<u8> {
    let drawing = image::read(&call.image).ok()?;
    Some(drawing.curve(call.curve).map_or(0, kind_code))
}

/// The kind byte, with 10 added for an infinite line.
fn kind_code(curve: &Curve) -> u8 {
    curve.kind.code() + 10 * u8::from(curve.infinite)
}

/// The kind byte of the relation at a place, or 10 for one that the edit added.
fn relation_code(before: &Drawing, place: usize) -> u8 {
    before.relations.get(place).map_or(10, Relation::code)
}

fn sizes(drawing: &Drawing) -> [usize; 3] {
    [drawing.points.len(), drawing.curves.len(), drawing.relations.len()]
}

fn nearly_full(drawing: &Drawing) -> [usize; 3] {
    let sizes = sizes(drawing);
    let nearly = [MAX_POINTS, MAX_CURVES, MAX_RELATIONS].map(|limit| limit - 4);
    std::array::from_fn(|table| usize::from(sizes[table] > nearly[table]))
}

fn pinned_to(after: &Drawing) -> u8 {
    match after.relations.last() {
        Some(Relation::PointOnCurve { c, .. }) => after.curve(*c).map_or(0, kind_code),
        Some(relation) => 20 + relation.code(),
        None => 0,
    }
}
