//! Drawings that are just good or just not, each for one rule, and pairs of faults that show
//! which test comes first.

use crate::drawing::*;
use crate::examples::{curve, line, point};

/// Four points, ids 1 to 4, the curves 5 and on, and the relations.
fn drawing(kinds: &[CurveKind], relations: &[Relation]) -> Drawing {
    Drawing {
        next_id: 9,
        points: (1..=4).map(|id| point(id, f64::from(id), 0.0)).collect(),
        curves: (5..).zip(kinds).map(|(id, kind)| curve(id, *kind)).collect(),
        relations: relations.to_vec(),
    }
}

const LINE: CurveKind = CurveKind::Line { a: 1, b: 2 };
const WHEEL: CurveKind = CurveKind::Circle { c: 1, radius: 1.0 };

fn next_below(value: f64) -> f64 {
    f64::from_bits(value.to_bits() - 1)
}

fn next_above(value: f64) -> f64 {
    f64::from_bits(value.to_bits() + 1)
}

pub fn all() -> Vec<Drawing> {
    [curve_references(), relation_references(), numbers(), coordinates(), ids(), orders()].concat()
}

/// Ids that may and may not be equal.
fn curve_references() -> Vec<Drawing> {
    let arc = |c, a, b| CurveKind::Arc { c, a, b };
    let conic = |a, apex, b| CurveKind::Conic { a, apex, b, rho: 0.5 };
    let kinds = [
        CurveKind::Line { a: 1, b: 1 },
        arc(1, 1, 2),
        arc(1, 2, 1),
        arc(1, 2, 2),
        arc(1, 2, 3),
        conic(1, 1, 1),
        conic(1, 2, 9),
        CurveKind::Bezier { degree: 2, points: [1, 1, 1, 0, 0, 0, 0, 0] },
        CurveKind::Bezier { degree: 2, points: [1, 2, 5, 0, 0, 0, 0, 0] },
        CurveKind::Bezier { degree: 2, points: [1, 2, 3, 4, 0, 0, 0, 0] },
        CurveKind::Bezier { degree: 0, points: [1, 0, 0, 0, 0, 0, 0, 0] },
    ];
    kinds.map(|kind| drawing(&[kind], &[])).to_vec()
}

fn relation_references() -> Vec<Drawing> {
    let value = 1.0;
    let relations = [
        Relation::Coincident { p: 1, q: 1 },
        Relation::Coincident { p: 1, q: 5 },
        Relation::PointOnCurve { p: 5, c: 5 },
        Relation::PointOnCurve { p: 1, c: 1 },
        Relation::Collinear { a: 5, b: 5 },
        Relation::Collinear { a: 5, b: 7 },
        Relation::Equal { a: 5, b: 5 },
        Relation::Equal { a: 7, b: 7 },
        Relation::Equal { a: 5, b: 7 },
        Relation::Equal { a: 7, b: 5 },
        Relation::Equal { a: 5, b: 6 },
        Relation::Length { line: 7, value },
        Relation::Distance { p: 2, q: 2, value },
        Relation::Midpoint { p: 1, line: 7 },
        Relation::ArcLength { round: 5, value },
        Relation::ArcSweep { round: 5, value },
    ];
    let kinds = [LINE, CurveKind::Line { a: 3, b: 4 }, WHEEL];
    relations.map(|relation| drawing(&kinds, &[relation])).to_vec()
}

/// Radius, rho and value at their ends and one step outside.
fn numbers() -> Vec<Drawing> {
    let radius = |radius| drawing(&[CurveKind::Circle { c: 1, radius }], &[]);
    let rho = |rho| drawing(&[CurveKind::Conic { a: 1, apex: 2, b: 3, rho }], &[]);
    let value = |value| drawing(&[LINE], &[Relation::Length { line: 5, value }]);
    let (low, high) = (*RADIUS.start(), *RADIUS.end());
    let radii = [low, next_below(low), high, next_above(high), -1.0, f64::NAN, f64::INFINITY];
    let rhos = [0.0, -0.0, f64::from_bits(1), next_below(1.0), 1.0, f64::NAN, -0.5];
    let values = [0.0, -0.0, MAX_VALUE, next_above(MAX_VALUE), -f64::from_bits(1), f64::NAN];
    let mut drawings: Vec<Drawing> = radii.map(radius).to_vec();
    drawings.extend(rhos.map(rho));
    drawings.extend(values.map(value));
    drawings
}

fn coordinates() -> Vec<Drawing> {
    let edge = MAX_COORDINATE;
    let values =
        [-0.0, edge, -edge, next_above(edge), -next_above(edge), f64::NAN, f64::NEG_INFINITY];
    let with =
        |x: f64, y: f64| Drawing { next_id: 2, points: vec![point(1, x, y)], ..Drawing::empty() };
    values.iter().flat_map(|value| [with(*value, 1.0), with(1.0, *value)]).collect()
}

/// Own ids in and out of order, in both tables at once, and at the next id.
fn ids() -> Vec<Drawing> {
    let points = |ids: &[Id]| Drawing {
        next_id: 9,
        points: ids.iter().map(|id| point(*id, 0.0, 0.0)).collect(),
        ..Drawing::empty()
    };
    let curves = |ids: &[Id]| Drawing {
        curves: ids.iter().map(|id| line(*id, 1, 2)).collect(),
        ..points(&[1, 2])
    };
    let lists: [&[Id]; 6] = [&[0], &[1, 1], &[2, 1], &[8], &[9], &[3, 8]];
    let mut drawings: Vec<Drawing> = lists.iter().map(|ids| points(ids)).collect();
    drawings.extend(lists.iter().map(|ids| curves(ids)));
    // A point and a curve of one number, named together.
    let mut shared = curves(&[1, 2]);
    shared.relations =
        vec![Relation::PointOnCurve { p: 1, c: 1 }, Relation::Midpoint { p: 2, line: 2 }];
    drawings.push(shared);
    let mut last = points(&[Id::MAX - 1]);
    last.next_id = Id::MAX;
    drawings.push(last);
    drawings
}

/// Two faults each.
fn orders() -> Vec<Drawing> {
    let bad_point = point(0, f64::NAN, 0.0);
    let bad_radius = CurveKind::Circle { c: 99, radius: 0.0 };
    let bad_value = Relation::Length { line: 99, value: -1.0 };
    let dangling = CurveKind::Circle { c: 99, radius: 1.0 };
    let mut in_one_point = drawing(&[], &[]);
    in_one_point.points[0] = bad_point;
    let mut early_id_late_value = drawing(&[], &[]);
    early_id_late_value.points[0].id = 0;
    early_id_late_value.points[1].x = f64::NAN;
    let mut own_id_and_value = drawing(&[CurveKind::Circle { c: 1, radius: 0.0 }], &[]);
    own_id_and_value.curves[0].id = 0;
    let mut no_next_id = drawing(&[bad_radius], &[]);
    no_next_id.next_id = 0;
    no_next_id.points[0].id = 0;
    let mut over_and_no_next_id = drawing(&[LINE; MAX_CURVES + 1], &[]);
    over_and_no_next_id.next_id = 0;
    vec![
        in_one_point,
        early_id_late_value,
        own_id_and_value,
        no_next_id,
        over_and_no_next_id,
        drawing(&[bad_radius], &[]),
        drawing(&[dangling, bad_radius], &[]),
        drawing(&[LINE], &[bad_value]),
        drawing(&[LINE], &[Relation::Length { line: 99, value: 1.0 }, bad_value]),
        drawing(&[dangling], &[bad_value]),
    ]
}
