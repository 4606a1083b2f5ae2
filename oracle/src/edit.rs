//! Trim, split and extend of a drawing: the tests that stand before an edit, then upstream's own
//! code on a copy.

use crate::convert::{curve_place, to_drawing, to_sketch};
use crate::drawing::{Curve, CurveKind, Drawing, Id};
use crate::message::{Edit, Operation};
use crate::refusal::Refusal;
use crate::upstream;
use crate::validity;
use cad_geom::Vec2;
use cad_sketch::{first_unmet, Shape, Sketch};

/// The curve that an edit removed and its two ends; zeros where none went, or for a circle's ends.
#[derive(Clone, Copy, Debug, Default, PartialEq, Eq)]
pub struct Report {
    pub removed: Id,
    pub ends: [Id; 2],
}

/// A refusal, with the place of the first relation not met where that is the reason.
#[derive(Clone, Copy, Debug, PartialEq, Eq)]
pub struct Refused {
    pub refusal: Refusal,
    pub place: Option<usize>,
}

impl From<Refusal> for Refused {
    fn from(refusal: Refusal) -> Self {
        Refused { refusal, place: None }
    }
}

/// Tests the drawing and the edit, and applies the edit to a copy.
pub fn apply(drawing: &Drawing, edit: &Edit) -> Result<(Drawing, Report), Refused> {
    validity::check(drawing)?;
    apply_tested(drawing, edit)
}

/// `apply` for a drawing that is known to be good.
pub fn apply_tested(drawing: &Drawing, edit: &Edit) -> Result<(Drawing, Report), Refused> {
    let mut sketch = to_sketch(drawing);
    edit_sketch(drawing, &mut sketch, edit)?;
    let removed = sketch.removed.unwrap_or_default();
    Ok((to_drawing(&sketch), Report { removed: removed.id, ends: removed.ends }))
}

/// Tests an edit of a good drawing and applies it to the drawing's sketch, which a refusal may leave
/// altered.
pub fn edit_sketch(drawing: &Drawing, sketch: &mut Sketch, edit: &Edit) -> Result<(), Refused> {
    if !validity::is_coordinate(edit.x) || !validity::is_coordinate(edit.y) {
        return Err(Refusal::Pick.into());
    }
    let place = curve_place(drawing, edit.curve).ok_or(Refusal::NoCurve)?;
    let target = &drawing.curves[place];
    if !takes_target(edit.operation, target, sketch.shape(place).as_ref()) {
        return Err(Refusal::Kind.into());
    }
    if needs_all_cuts(edit.operation, target) && has_freeform(drawing) {
        return Err(Refusal::Freeform.into());
    }
    apply_by_upstream(sketch, place, edit)
}

/// Whether an operation applies to a curve; freeform curves have no shape.
fn takes_target(operation: Operation, target: &Curve, shape: Option<&Shape>) -> bool {
    let Some(shape) = shape else { return false };
    let full_arc = matches!(target.kind, CurveKind::Arc { .. }) && shape.is_full();
    match operation {
        Operation::Trim => !target.infinite && !full_arc,
        Operation::Split => !full_arc,
        Operation::Extend => target.kind.is_line(),
    }
}

/// Whether the answer depends on the cuts that every other curve makes.
fn needs_all_cuts(operation: Operation, target: &Curve) -> bool {
    match operation {
        Operation::Trim => true,
        Operation::Split => matches!(target.kind, CurveKind::Circle { .. }),
        Operation::Extend => false,
    }
}

fn has_freeform(drawing: &Drawing) -> bool {
    drawing.curves.iter().any(|curve| curve.kind.is_freeform())
}

fn apply_by_upstream(sketch: &mut Sketch, place: usize, edit: &Edit) -> Result<(), Refused> {
    let pick = Vec2::new(edit.x, edit.y);
    let outcome = match edit.operation {
        Operation::Trim => upstream::trim(sketch, place, pick),
        Operation::Split => upstream::split(sketch, place, pick),
        Operation::Extend => upstream::extend(sketch, place, pick),
    };
    outcome.map_err(|error| {
        let refusal = upstream::refusal_of(&error);
        // Upstream leaves the sketch as it was when it looked at the relations.
        let unmet = matches!(refusal, Refusal::Unmet | Refusal::Conflict);
        Refused { refusal, place: if unmet { first_unmet(sketch) } else { None } }
    })
}
