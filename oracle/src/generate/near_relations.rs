//! Relations that are just met or just not: what they measure lies at the tolerance or beside it.

use super::random::Random;
use super::scene::Scene;
use crate::drawing::*;

const TOLERANCE: f64 = 1e-7;

/// A drawing of a few relations, each on points and curves of its own; as often as not of one.
pub fn drawing(random: &mut Random) -> Drawing {
    let relations = random.pick(&[1, 1, 1, 2, 3, 6]);
    let mut scene = Scene::new(random, MAX_CURVES);
    for _ in 0..relations {
        let relation = match scene.random.between(1, 9) {
            1 => coincident(&mut scene),
            2 => on_curve(&mut scene),
            3 => collinear(&mut scene),
            4 => equal(&mut scene),
            5 => length(&mut scene),
            6 => distance(&mut scene),
            7 => midpoint(&mut scene),
            8 => Relation::ArcLength { round: round(&mut scene, 2.0), value: 1.0 },
            _ => Relation::ArcSweep { round: round(&mut scene, 2.0), value: 1.0 },
        };
        scene.drawing.relations.push(relation);
    }
    scene.finish()
}

/// A length whose comparison with the tolerance is close, or nothing at all.
fn gap(random: &mut Random) -> f64 {
    let ulps = random.between(-4, 4);
    let beside = f64::from_bits(TOLERANCE.to_bits().wrapping_add_signed(ulps));
    let share = TOLERANCE * (0.98 + 0.04 * random.unit());
    let size = random.weighted(&[(12, beside), (6, share), (3, 0.0), (1, -0.0), (2, 2.0)]);
    if random.one_in(2) {
        size
    } else {
        -size
    }
}

/// A position where a gap is not lost to rounding, or one where some of it is.
fn base(random: &mut Random) -> (f64, f64) {
    let mut one = || {
        let tiny = random.unit() * 1e-6;
        let grid = random.grid();
        random.weighted(&[(6, 0.0), (2, -0.0), (4, tiny), (3, grid), (1, 1e5)])
    };
    (one(), one())
}

/// A direction of length 1: along an axis, on the grid, or any.
fn direction(random: &mut Random) -> (f64, f64) {
    let turn = random.unit() * std::f64::consts::TAU;
    let any = (turn.cos(), turn.sin());
    random.pick(&[(1.0, 0.0), (0.0, 1.0), (0.6, 0.8), (-0.8, 0.6), any, any])
}

fn moved((x, y): (f64, f64), (dx, dy): (f64, f64), by: f64) -> (f64, f64) {
    (x + dx * by, y + dy * by)
}

fn left((dx, dy): (f64, f64)) -> (f64, f64) {
    (-dy, dx)
}

fn point(scene: &mut Scene, (x, y): (f64, f64)) -> Id {
    scene.point(x, y)
}

fn line(scene: &mut Scene, from: (f64, f64), to: (f64, f64)) -> Id {
    let (a, b) = (point(scene, from), point(scene, to));
    scene.curve(CurveKind::Line { a, b })
}

/// A circle, or an arc, of this radius.
fn round(scene: &mut Scene, radius: f64) -> Id {
    let at = base(scene.random);
    round_at(scene, at, radius)
}

fn round_at(scene: &mut Scene, at: (f64, f64), radius: f64) -> Id {
    let radius = radius.clamp(*RADIUS.start(), *RADIUS.end());
    let c = point(scene, at);
    if scene.random.one_in(2) {
        return scene.curve(CurveKind::Circle { c, radius });
    }
    let (from, to) = (direction(scene.random), direction(scene.random));
    let a = point(scene, moved(at, from, radius));
    let b = point(scene, moved(at, to, radius));
    scene.curve(CurveKind::Arc { c, a, b })
}

fn some_radius(random: &mut Random) -> f64 {
    let even = 1e-6 + random.unit() * 10.0;
    random.pick(&[1e-6, 1.1e-6, 1e-3, 1.0, 2.0, 5.0, even])
}

fn some_length(random: &mut Random) -> f64 {
    let even = random.unit() * 10.0;
    random.pick(&[0.0, 0.0, 1e-13, 1e-7, 1e-6, 1.0, 4.0, even])
}

fn coincident(scene: &mut Scene) -> Relation {
    let (at, along, by) = (base(scene.random), direction(scene.random), gap(scene.random));
    Relation::Coincident { p: point(scene, at), q: point(scene, moved(at, along, by)) }
}

fn on_curve(scene: &mut Scene) -> Relation {
    let (at, along, by) = (base(scene.random), direction(scene.random), gap(scene.random));
    match scene.random.below(5) {
        0 => {
            let mut points = [0; SLOTS];
            points[0] = point(scene, at);
            points[1] = point(scene, moved(at, along, 1.0));
            let c = scene.curve(CurveKind::Bezier { degree: 1, points });
            Relation::PointOnCurve { p: point(scene, moved(at, left(along), 3.0)), c }
        }
        1 | 2 => {
            let length = some_length(scene.random);
            let c = line(scene, at, moved(at, along, length));
            let ahead = scene.random.unit() * 3.0 - 1.0;
            let foot = moved(at, along, ahead * length);
            Relation::PointOnCurve { p: point(scene, moved(foot, left(along), by)), c }
        }
        _ => {
            let radius = some_radius(scene.random);
            let c = round_at(scene, at, radius);
            let off = scene.random.weighted(&[(9, radius + by), (1, 0.0), (1, 1e-13)]);
            Relation::PointOnCurve { p: point(scene, moved(at, along, off)), c }
        }
    }
}

fn collinear(scene: &mut Scene) -> Relation {
    let (at, along) = (base(scene.random), direction(scene.random));
    let (near, far) = (gap(scene.random), gap(scene.random));
    let (near, far) = scene.random.pick(&[(near, far), (0.0, far), (near, 0.0)]);
    let length = some_length(scene.random);
    let a = line(scene, at, moved(at, along, length));
    let start = moved(moved(at, along, length * 1.5), left(along), near);
    let stop = moved(moved(at, along, length * 2.5), left(along), far);
    Relation::Collinear { a, b: line(scene, start, stop) }
}

fn equal(scene: &mut Scene) -> Relation {
    let by = gap(scene.random);
    if scene.random.one_in(2) {
        let radius = some_radius(scene.random);
        return Relation::Equal { a: round(scene, radius), b: round(scene, radius + by) };
    }
    let length = some_length(scene.random);
    let mut one = |length: f64| {
        let (at, along) = (base(scene.random), direction(scene.random));
        line(scene, at, moved(at, along, length))
    };
    Relation::Equal { a: one(length), b: one(length + by) }
}

/// A value beside a length, within what a relation may have.
fn beside(random: &mut Random, length: f64) -> f64 {
    let value = (length + gap(random)).clamp(0.0, MAX_VALUE);
    if value == 0.0 {
        random.pick(&[0.0, -0.0])
    } else {
        value
    }
}

fn length(scene: &mut Scene) -> Relation {
    let (at, along, length) =
        (base(scene.random), direction(scene.random), some_length(scene.random));
    let value = beside(scene.random, length);
    Relation::Length { line: line(scene, at, moved(at, along, length)), value }
}

fn distance(scene: &mut Scene) -> Relation {
    let (at, along, length) =
        (base(scene.random), direction(scene.random), some_length(scene.random));
    let value = beside(scene.random, length);
    Relation::Distance { p: point(scene, at), q: point(scene, moved(at, along, length)), value }
}

fn midpoint(scene: &mut Scene) -> Relation {
    let (at, along, length) =
        (base(scene.random), direction(scene.random), some_length(scene.random));
    let (aside, by) = (direction(scene.random), gap(scene.random));
    let end = moved(at, along, length);
    let middle = ((at.0 + end.0) * 0.5, (at.1 + end.1) * 0.5);
    let line = line(scene, at, end);
    let p = scene.random.weighted(&[(8, moved(middle, aside, by)), (1, at), (1, end)]);
    Relation::Midpoint { p: point(scene, p), line }
}
