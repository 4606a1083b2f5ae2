//! Relations between what a scene holds, most of them met.

use super::scene::Scene;
use crate::drawing::*;

/// Tries one relation of a random kind; adds it if it is met, or once in a while if it is not.
pub fn add_relation(scene: &mut Scene) {
    let unmet_too = !scene.met && scene.random.one_in(6);
    let candidate = match scene.random.between(1, 9) {
        1 => coincident(scene, unmet_too),
        2 => on_curve(scene, unmet_too),
        3 => lines(scene)
            .filter(|pair| unmet_too || collinear(scene, *pair))
            .map(|(a, b)| Relation::Collinear { a, b }),
        4 => equal(scene, unmet_too),
        5 => length(scene),
        6 => distance(scene),
        7 => midpoint(scene, unmet_too),
        8 => some_curve(scene, CurveKind::is_round)
            .map(|round| Relation::ArcLength { round, value: any_value(scene) }),
        _ => some_curve(scene, CurveKind::is_round)
            .map(|round| Relation::ArcSweep { round, value: any_value(scene) }),
    };
    if let Some(relation) = candidate.filter(|_| scene.drawing.relations.len() < MAX_RELATIONS) {
        scene.drawing.relations.push(relation);
    }
}

fn any_value(scene: &mut Scene) -> f64 {
    let even = scene.random.unit() * MAX_VALUE;
    scene.random.pick(&[0.0, -0.0, 1.0, 2.5, MAX_VALUE, even, 5e-324])
}

/// The value as measured; where relations may fail, at times nudged or something else.
fn measured(scene: &mut Scene, value: f64) -> f64 {
    if scene.met {
        return value.min(MAX_VALUE);
    }
    let near = (value + scene.random.jitter() * 0.1).clamp(0.0, MAX_VALUE);
    let other = any_value(scene);
    scene.random.weighted(&[(9, near), (1, other)])
}

fn some_curve(scene: &mut Scene, fits: impl Fn(&CurveKind) -> bool) -> Option<Id> {
    let curves = &scene.drawing.curves;
    if curves.is_empty() {
        return None;
    }
    let start = scene.random.below(curves.len());
    curves[start..].iter().chain(&curves[..start]).find(|c| fits(&c.kind)).map(|c| c.id)
}

fn two_points(scene: &mut Scene) -> Option<(Id, Id)> {
    if scene.drawing.points.is_empty() {
        return None;
    }
    let (p, q) = (scene.any_point(), scene.any_point());
    (p != q).then_some((p, q))
}

fn lines(scene: &mut Scene) -> Option<(Id, Id)> {
    let a = some_curve(scene, CurveKind::is_line)?;
    let b = some_curve(scene, CurveKind::is_line)?;
    (a != b).then_some((a, b))
}

fn gap(scene: &Scene, p: Id, q: Id) -> f64 {
    let ((px, py), (qx, qy)) = (scene.position(p), scene.position(q));
    (px - qx).hypot(py - qy)
}

fn line_ends(scene: &Scene, line: Id) -> (Id, Id) {
    match scene.drawing.curve(line).map(|curve| curve.kind) {
        Some(CurveKind::Line { a, b }) => (a, b),
        _ => unreachable!("the id was chosen among lines"),
    }
}

/// How far a point is from an endless line.
fn off_line(scene: &Scene, p: Id, line: Id) -> f64 {
    let (a, b) = line_ends(scene, line);
    let ((px, py), (ax, ay), (bx, by)) = (scene.position(p), scene.position(a), scene.position(b));
    let length = gap(scene, a, b);
    if length < 1e-12 {
        return gap(scene, p, a);
    }
    (((bx - ax) * (py - ay) - (by - ay) * (px - ax)) / length).abs()
}

fn coincident(scene: &mut Scene, unmet_too: bool) -> Option<Relation> {
    let (p, q) = two_points(scene)?;
    if unmet_too || gap(scene, p, q) <= 1e-7 {
        return Some(Relation::Coincident { p, q });
    }
    let other = scene.drawing.points.iter().find(|o| o.id != p && gap(scene, p, o.id) <= 1e-7)?;
    Some(Relation::Coincident { p, q: other.id })
}

fn on_curve(scene: &mut Scene, unmet_too: bool) -> Option<Relation> {
    let c = some_curve(scene, |_| true)?;
    let p = scene.any_point();
    let met = |p: Id| match scene.drawing.curve(c).map(|curve| curve.kind) {
        Some(CurveKind::Line { .. }) => off_line(scene, p, c) <= 1e-7,
        Some(CurveKind::Arc { c, a, .. }) => (gap(scene, p, c) - gap(scene, a, c)).abs() <= 1e-7,
        Some(CurveKind::Circle { c, radius }) => (gap(scene, p, c) - radius).abs() <= 1e-7,
        _ => true,
    };
    if unmet_too || met(p) {
        return Some(Relation::PointOnCurve { p, c });
    }
    let on = scene.drawing.points.iter().map(|point| point.id).find(|p| met(*p))?;
    Some(Relation::PointOnCurve { p: on, c })
}

fn collinear(scene: &Scene, (a, b): (Id, Id)) -> bool {
    let (p, q) = line_ends(scene, b);
    off_line(scene, p, a) <= 1e-7 && off_line(scene, q, a) <= 1e-7
}

fn equal(scene: &mut Scene, unmet_too: bool) -> Option<Relation> {
    let rounds = scene.random.one_in(2);
    let fits = |kind: &CurveKind| if rounds { kind.is_round() } else { kind.is_line() };
    let a = some_curve(scene, fits)?;
    let extent = |id: Id| match scene.drawing.curve(id).map(|curve| curve.kind) {
        Some(CurveKind::Line { a, b }) | Some(CurveKind::Arc { c: a, a: b, .. }) => {
            gap(scene, a, b)
        }
        Some(CurveKind::Circle { radius, .. }) => radius,
        _ => f64::NAN,
    };
    let mut others = scene.drawing.curves.iter().filter(|curve| curve.id != a && fits(&curve.kind));
    let other = others.find(|o| unmet_too || (extent(a) - extent(o.id)).abs() <= 1e-7)?;
    Some(Relation::Equal { a, b: other.id })
}

fn length(scene: &mut Scene) -> Option<Relation> {
    let line = some_curve(scene, CurveKind::is_line)?;
    let (a, b) = line_ends(scene, line);
    let value = gap(scene, a, b);
    Some(Relation::Length { line, value: measured(scene, value) })
}

fn distance(scene: &mut Scene) -> Option<Relation> {
    let (p, q) = two_points(scene)?;
    let value = gap(scene, p, q);
    Some(Relation::Distance { p, q, value: measured(scene, value) })
}

fn midpoint(scene: &mut Scene, unmet_too: bool) -> Option<Relation> {
    let line = some_curve(scene, CurveKind::is_line)?;
    let (a, b) = line_ends(scene, line);
    let ((ax, ay), (bx, by)) = (scene.position(a), scene.position(b));
    let (x, y) = ((ax + bx) * 0.5, (ay + by) * 0.5);
    let middle = scene.drawing.points.iter().find(|p| (p.x - x).hypot(p.y - y) <= 1e-7);
    match middle.map(|point| point.id) {
        Some(p) => Some(Relation::Midpoint { p, line }),
        None if unmet_too => Some(Relation::Midpoint { p: a, line }),
        None if scene.points_left() > 12 => {
            let p = scene.point(x, y);
            Some(Relation::Midpoint { p, line })
        }
        None => None,
    }
}
