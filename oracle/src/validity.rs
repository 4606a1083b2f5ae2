//! The tests that a drawing passes, whether it comes as an image or as a value: counts, then
//! the next id, then record by record its values before its references.

use crate::drawing::*;
use crate::refusal::Refusal;

/// Tests a drawing value as its image would be tested.
pub fn check(drawing: &Drawing) -> Result<(), Refusal> {
    let (points, curves) = (&drawing.points, &drawing.curves);
    check_counts(points.len(), curves.len(), drawing.relations.len())?;
    check_next_id(drawing.next_id)?;
    let mut previous = 0;
    for point in points {
        check_point(point, previous, drawing.next_id)?;
        previous = point.id;
    }
    previous = 0;
    for curve in curves {
        check_curve(curve, previous, drawing.next_id, points)?;
        previous = curve.id;
    }
    drawing.relations.iter().try_for_each(|relation| check_relation(relation, points, curves))
}

pub fn check_counts(points: usize, curves: usize, relations: usize) -> Result<(), Refusal> {
    let within = points <= MAX_POINTS && curves <= MAX_CURVES && relations <= MAX_RELATIONS;
    require(within, Refusal::Count)
}

pub fn check_next_id(next_id: Id) -> Result<(), Refusal> {
    require(next_id != 0, Refusal::Value)
}

/// Finite and within the drawing's bounds; a NaN fails the comparison.
pub fn is_coordinate(value: f64) -> bool {
    value.abs() <= MAX_COORDINATE
}

pub fn check_point(point: &Point, previous: Id, next_id: Id) -> Result<(), Refusal> {
    require(is_coordinate(point.x) && is_coordinate(point.y), Refusal::Value)?;
    require(rises(point.id, previous, next_id), Refusal::Reference)
}

pub fn check_curve(
    curve: &Curve,
    previous: Id,
    next_id: Id,
    points: &[Point],
) -> Result<(), Refusal> {
    require(curve_values_hold(curve), Refusal::Value)?;
    require(rises(curve.id, previous, next_id), Refusal::Reference)?;
    require(curve_references_hold(&curve.kind, points), Refusal::Reference)
}

pub fn check_relation(
    relation: &Relation,
    points: &[Point],
    curves: &[Curve],
) -> Result<(), Refusal> {
    // A value of −0 compares as 0 and is allowed.
    let value_holds = relation.value().is_none_or(|value| (0.0..=MAX_VALUE).contains(&value));
    require(value_holds, Refusal::Value)?;
    require(relation_references_hold(relation, points, curves), Refusal::Reference)
}

fn require(holds: bool, refusal: Refusal) -> Result<(), Refusal> {
    if holds {
        Ok(())
    } else {
        Err(refusal)
    }
}

/// Ids rise strictly from 1 and stay below the next id.
fn rises(id: Id, previous: Id, next_id: Id) -> bool {
    previous < id && id < next_id
}

fn curve_values_hold(curve: &Curve) -> bool {
    let kind_holds = match &curve.kind {
        CurveKind::Line { .. } => return true,
        CurveKind::Arc { .. } => true,
        CurveKind::Circle { radius, .. } => RADIUS.contains(radius),
        CurveKind::Bezier { degree, points } => {
            (1..=MAX_DEGREE).contains(degree)
                && points[usize::from(*degree) + 1..].iter().all(|slot| *slot == 0)
        }
        CurveKind::Conic { rho, .. } => 0.0 < *rho && *rho < 1.0,
    };
    kind_holds && !curve.infinite
}

fn curve_references_hold(kind: &CurveKind, points: &[Point]) -> bool {
    let stands = |id: Id| find_point(points, id).is_some();
    match *kind {
        CurveKind::Line { a, b } => a != b && stands(a) && stands(b),
        CurveKind::Arc { c, a, b } => {
            c != a && c != b && a != b && stands(c) && stands(a) && stands(b)
        }
        CurveKind::Circle { c, .. } => stands(c),
        CurveKind::Bezier { degree, points: slots } => {
            slots[..=usize::from(degree)].iter().all(|slot| stands(*slot))
        }
        CurveKind::Conic { a, apex, b, .. } => stands(a) && stands(apex) && stands(b),
    }
}

fn relation_references_hold(relation: &Relation, points: &[Point], curves: &[Curve]) -> bool {
    let point = |id: Id| find_point(points, id).is_some();
    let kind = |id: Id| find_curve(curves, id).map(|curve| &curve.kind);
    let line = |id: Id| kind(id).is_some_and(CurveKind::is_line);
    let round = |id: Id| kind(id).is_some_and(CurveKind::is_round);
    match *relation {
        Relation::Coincident { p, q } | Relation::Distance { p, q, .. } => {
            p != q && point(p) && point(q)
        }
        Relation::PointOnCurve { p, c } => point(p) && kind(c).is_some(),
        Relation::Collinear { a, b } => a != b && line(a) && line(b),
        Relation::Equal { a, b } => a != b && ((line(a) && line(b)) || (round(a) && round(b))),
        Relation::Length { line: l, .. } => line(l),
        Relation::Midpoint { p, line: l } => point(p) && line(l),
        Relation::ArcLength { round: r, .. } | Relation::ArcSweep { round: r, .. } => round(r),
    }
}
