//! Between drawings, whose records name each other by id, and sketches, which do so by place.

use crate::drawing::{Curve, CurveKind, Drawing, Id, Point, Relation, SLOTS};
use cad_geom::Vec2;
use cad_sketch::{Constraint, ConstraintKind, Sketch};

/// The sketch of a drawing that passed its tests.
pub fn to_sketch(drawing: &Drawing) -> Sketch {
    let points = drawing.points.iter().map(|point| cad_sketch::Point {
        id: point.id,
        pos: Vec2::new(point.x, point.y),
        fixed: point.fixed,
    });
    let curves = drawing.curves.iter().map(|curve| cad_sketch::Curve {
        id: curve.id,
        kind: to_places(drawing, &curve.kind),
        construction: curve.construction,
        reversed: false,
        link: None,
        centerline: curve.centerline,
        fixed: false,
        infinite: curve.infinite,
    });
    let relations = drawing.relations.iter();
    Sketch {
        points: points.collect(),
        curves: curves.collect(),
        constraints: relations
            .map(|relation| Constraint { kind: to_constraint(drawing, relation) })
            .collect(),
        next_id: drawing.next_id,
        removed: None,
    }
}

pub fn curve_place(drawing: &Drawing, id: Id) -> Option<usize> {
    drawing.curves.binary_search_by_key(&id, |curve| curve.id).ok()
}

fn place_of_point(drawing: &Drawing, id: Id) -> usize {
    let place = drawing.points.binary_search_by_key(&id, |point| point.id);
    place.expect("a tested drawing names its own points")
}

fn place_of_curve(drawing: &Drawing, id: Id) -> usize {
    curve_place(drawing, id).expect("a tested drawing names its own curves")
}

fn to_places(drawing: &Drawing, kind: &CurveKind) -> cad_sketch::CurveKind {
    use cad_sketch::CurveKind as KindByPlace;
    let at = |id: Id| place_of_point(drawing, id);
    match *kind {
        CurveKind::Line { a, b } => KindByPlace::Line { a: at(a), b: at(b) },
        CurveKind::Arc { c, a, b } => KindByPlace::Arc { c: at(c), a: at(a), b: at(b) },
        CurveKind::Circle { c, radius } => KindByPlace::Circle { c: at(c), r: radius },
        CurveKind::Bezier { degree, points: ids } => {
            let mut points = [0; SLOTS];
            for (place, id) in points.iter_mut().zip(&ids[..=usize::from(degree)]) {
                *place = at(*id);
            }
            KindByPlace::Bezier { degree, points }
        }
        CurveKind::Conic { a, apex, b, rho } => {
            KindByPlace::Conic { a: at(a), apex: at(apex), b: at(b), rho }
        }
    }
}

fn to_constraint(drawing: &Drawing, relation: &Relation) -> ConstraintKind {
    let point = |id: Id| place_of_point(drawing, id);
    let curve = |id: Id| place_of_curve(drawing, id);
    match *relation {
        Relation::Coincident { p, q } => ConstraintKind::Coincident { p: point(p), q: point(q) },
        Relation::PointOnCurve { p, c } => {
            ConstraintKind::PointOnCurve { p: point(p), c: curve(c) }
        }
        Relation::Collinear { a, b } => ConstraintKind::Collinear { a: curve(a), b: curve(b) },
        Relation::Equal { a, b } => ConstraintKind::Equal { a: curve(a), b: curve(b) },
        Relation::Length { line, value } => ConstraintKind::Length { l: curve(line), value },
        Relation::Distance { p, q, value } => {
            ConstraintKind::Distance { p: point(p), q: point(q), value }
        }
        Relation::Midpoint { p, line } => ConstraintKind::Midpoint { p: point(p), l: curve(line) },
        Relation::ArcLength { round, value } => {
            ConstraintKind::ArcLength { c: curve(round), value }
        }
        Relation::ArcSweep { round, value } => ConstraintKind::ArcSweep { c: curve(round), value },
    }
}

pub fn to_drawing(sketch: &Sketch) -> Drawing {
    let points = sketch.points.iter().map(|point| Point {
        id: point.id,
        x: point.pos.x,
        y: point.pos.y,
        fixed: point.fixed,
    });
    let curves = sketch.curves.iter().map(|curve| Curve {
        id: curve.id,
        kind: to_ids(sketch, &curve.kind),
        construction: curve.construction,
        centerline: curve.centerline,
        infinite: curve.infinite,
    });
    Drawing {
        next_id: sketch.next_id,
        points: points.collect(),
        curves: curves.collect(),
        relations: sketch.constraints.iter().map(|c| to_relation(sketch, &c.kind)).collect(),
    }
}

fn to_ids(sketch: &Sketch, kind: &cad_sketch::CurveKind) -> CurveKind {
    use cad_sketch::CurveKind as KindByPlace;
    let id = |place: usize| sketch.points[place].id;
    match *kind {
        KindByPlace::Line { a, b } => CurveKind::Line { a: id(a), b: id(b) },
        KindByPlace::Arc { c, a, b } => CurveKind::Arc { c: id(c), a: id(a), b: id(b) },
        KindByPlace::Circle { c, r } => CurveKind::Circle { c: id(c), radius: r },
        KindByPlace::Bezier { degree, points: places } => {
            let mut points = [0; SLOTS];
            for (slot, place) in points.iter_mut().zip(&places[..=usize::from(degree)]) {
                *slot = id(*place);
            }
            CurveKind::Bezier { degree, points }
        }
        KindByPlace::Conic { a, apex, b, rho } => {
            CurveKind::Conic { a: id(a), apex: id(apex), b: id(b), rho }
        }
    }
}

fn to_relation(sketch: &Sketch, kind: &ConstraintKind) -> Relation {
    let point = |place: usize| sketch.points[place].id;
    let curve = |place: usize| sketch.curves[place].id;
    match *kind {
        ConstraintKind::Coincident { p, q } => Relation::Coincident { p: point(p), q: point(q) },
        ConstraintKind::PointOnCurve { p, c } => {
            Relation::PointOnCurve { p: point(p), c: curve(c) }
        }
        ConstraintKind::Collinear { a, b } => Relation::Collinear { a: curve(a), b: curve(b) },
        ConstraintKind::Equal { a, b } => Relation::Equal { a: curve(a), b: curve(b) },
        ConstraintKind::Length { l, value } => Relation::Length { line: curve(l), value },
        ConstraintKind::Distance { p, q, value } => {
            Relation::Distance { p: point(p), q: point(q), value }
        }
        ConstraintKind::Midpoint { p, l } => Relation::Midpoint { p: point(p), line: curve(l) },
        ConstraintKind::ArcLength { c, value } => Relation::ArcLength { round: curve(c), value },
        ConstraintKind::ArcSweep { c, value } => Relation::ArcSweep { round: curve(c), value },
    }
}
