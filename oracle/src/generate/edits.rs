//! Edits of a given drawing, with picks where a finger would put them and where it matters.

use super::random::Random;
use crate::drawing::*;
use crate::message::{Edit, Operation};

/// An edit that mostly names a curve of the drawing and picks a position on it.
pub fn edit(random: &mut Random, drawing: &Drawing) -> Edit {
    let operation = random.pick(&Operation::ALL);
    edit_by(random, drawing, operation)
}

/// An edit by a given operation; it mostly names a curve of the drawing and picks a position on it.
pub fn edit_by(random: &mut Random, drawing: &Drawing, operation: Operation) -> Edit {
    let (curve, (x, y)) = match some_curve(random, drawing, operation) {
        Some(curve) if !random.one_in(60) => {
            (curve.id, pick_on(random, drawing, &curve.kind, operation == Operation::Extend))
        }
        _ => {
            let absent = random.pick(&[0, 1, 2, drawing.next_id, Id::MAX]);
            (absent, (random.coordinate(), random.coordinate()))
        }
    };
    let (x, y) = match random.below(80) {
        0 => (f64::from_bits(random.float_bits()), y),
        1 => (x, f64::from_bits(random.float_bits())),
        _ => (x, y),
    };
    Edit { operation, curve, x, y }
}

/// Any curve; for an extend a line if the first choice is none.
fn some_curve(random: &mut Random, drawing: &Drawing, operation: Operation) -> Option<Curve> {
    if drawing.curves.is_empty() {
        return None;
    }
    let chosen = random.pick(&drawing.curves);
    if operation != Operation::Extend || chosen.kind.is_line() || random.one_in(6) {
        return Some(chosen);
    }
    let lines: Vec<Curve> =
        drawing.curves.iter().filter(|curve| curve.kind.is_line()).copied().collect();
    Some(if lines.is_empty() { chosen } else { random.pick(&lines) })
}

fn pick_on(random: &mut Random, drawing: &Drawing, kind: &CurveKind, extends: bool) -> (f64, f64) {
    let position = |id: Id| drawing.point(id).map_or((0.0, 0.0), |point| (point.x, point.y));
    let aside = random.pick(&[0.0, 0.0, 0.1, -0.5, 3.0]) + random.jitter();
    match *kind {
        CurveKind::Line { a, b } => {
            let ((ax, ay), (bx, by)) = (position(a), position(b));
            let free = [(a, 0.0), (b, 1.0)].into_iter().find(|(end, _)| is_free(drawing, *end));
            let u = match free {
                Some((_, end)) if extends && !random.one_in(4) => end,
                _ => share(random),
            };
            let (dx, dy) = (bx - ax, by - ay);
            let reach = if dx.abs() + dy.abs() < 1e-9 { 1.0 } else { 0.1 };
            (ax + dx * u - dy * aside * reach, ay + dy * u + dx * aside * reach)
        }
        CurveKind::Arc { c, a, b } => {
            let (x, y) = position(random.pick(&[a, b]));
            if random.one_in(5) {
                return (x + random.small_offset(), y + random.small_offset());
            }
            around(random, position(c), (x, y), aside)
        }
        CurveKind::Circle { c, radius } => {
            let (x, y) = position(c);
            around(random, (x, y), (x + radius, y), aside)
        }
        CurveKind::Bezier { points, .. } => position(points[0]),
        CurveKind::Conic { apex, .. } => position(apex),
    }
}

/// Whether an extend may move this end: one curve uses it, and it is not fixed.
fn is_free(drawing: &Drawing, end: Id) -> bool {
    let uses = |curve: &&Curve| match curve.kind {
        CurveKind::Line { a, b } => [a, b].contains(&end),
        CurveKind::Arc { c, a, b } => [c, a, b].contains(&end),
        CurveKind::Circle { c, .. } => c == end,
        CurveKind::Bezier { points, .. } => points.contains(&end),
        CurveKind::Conic { a, apex, b, .. } => [a, apex, b].contains(&end),
    };
    drawing.point(end).is_some_and(|point| !point.fixed)
        && drawing.curves.iter().filter(uses).count() == 1
}

/// How far along a line: its ends, near them, crossings of the grid, anything between.
fn share(random: &mut Random) -> f64 {
    match random.below(8) {
        0 => random.pick(&[0.0, 1.0, -0.25, 1.25]),
        1 => random.pick(&[1e-9, 1e-10, 1.1e-9, 1.0 - 1e-9, 1.0 - 1e-10, 1.0 - 1.1e-9]),
        2 => random.pick(&[0.25, 0.5, 0.75]),
        3 => random.unit() * 3.0 - 1.0,
        _ => random.unit(),
    }
}

/// A position about a centre: on the rim's direction, at another angle, or the centre itself.
fn around(random: &mut Random, c: (f64, f64), rim: (f64, f64), aside: f64) -> (f64, f64) {
    let (dx, dy) = (rim.0 - c.0, rim.1 - c.1);
    let grow = 1.0 + aside * 0.1;
    let (cos, sin) = match random.below(6) {
        0 => return c,
        1 => (1.0, 0.0),
        2 => random.pick(&[(0.0, 1.0), (-1.0, 0.0), (0.0, -1.0), (0.6, 0.8), (-0.8, 0.6)]),
        _ => (random.unit() * 2.0 - 1.0, random.unit() * 2.0 - 1.0),
    };
    (c.0 + (dx * cos - dy * sin) * grow, c.1 + (dx * sin + dy * cos) * grow)
}
