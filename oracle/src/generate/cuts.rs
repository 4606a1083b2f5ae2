//! Drawings to trim and split: one target, cutters where tolerances decide, and a pick on it.

use super::crowd::crowd;
use super::cutters::add_cutter;
use super::frame::Frame;
use super::near_misses::{giant, nick};
use super::random::Random;
use super::scene::Scene;
use super::targets::{add_relations, Target};
use crate::drawing::*;
use crate::message::{Edit, Operation};

/// A drawing with a trim or split of it.
pub fn cut(random: &mut Random) -> (Drawing, Edit) {
    let frame = Frame::any(random);
    let mut scene = Scene::new(random, MAX_CURVES);
    match scene.random.below(48) {
        0 | 1 => return nicked(scene),
        2 => return out_of_bounds(scene),
        _ => {}
    }
    let target = Target::any(&mut scene, &frame);
    let (place, cuts) = add_crossed(&mut scene, &target);
    let (x, y) = pick(scene.random, &target, &cuts);
    edit_of(scene, place, x, y, 7)
}

/// Adds a target with curves that cut it, neighbours and relations. Answers its place in the table
/// and the parameters at which it is cut.
pub fn add_crossed(scene: &mut Scene, target: &Target) -> (usize, Vec<f64>) {
    let cuts = cut_parameters(scene.random, target);
    let (first, rest) = cuts.split_at(scene.random.below(cuts.len() + 1));
    first.iter().for_each(|t| add_cutter(scene, &target.frame(*t)));
    let curve = scene.curve(target.kind);
    let place = scene.drawing.curves.len() - 1;
    scene.drawing.curves[place].infinite &= scene.random.one_in(4);
    rest.iter().for_each(|t| add_cutter(scene, &target.frame(*t)));
    add_neighbours(scene, target);
    add_relations(scene, curve);
    (place, cuts)
}

/// The finished drawing, crowded once in so many times, with an edit of the curve at a place.
fn edit_of(scene: Scene, place: usize, x: f64, y: f64, crowded: usize) -> (Drawing, Edit) {
    let (mut drawing, random) = scene.plain();
    let operation = random.pick(&[Operation::Trim, Operation::Trim, Operation::Split]);
    if random.one_in(crowded) {
        crowd(random, &mut drawing);
    }
    let curve = drawing.curves[place].id;
    (drawing, Edit { operation, curve, x, y })
}

/// A circle cut twice at turn 0, where one parameter may be 0 and the other −0.
fn nicked(mut scene: Scene) -> (Drawing, Edit) {
    nick(&mut scene);
    let Curve { id, kind: CurveKind::Circle { c, radius }, .. } = scene.drawing.curves[0] else {
        unreachable!("a nick begins with its circle")
    };
    add_relations(&mut scene, id);
    let (x, y) = scene.position(c);
    let t = scene.random.near(1e-9);
    let (dx, dy) = scene.random.pick(&[(radius, t), (-radius, 0.0), (0.0, -radius), (1.0, 1.0)]);
    edit_of(scene, 0, x + dx, y + dy, 7)
}

/// A circle, or an arc of its lower or upper half, that an endless line cuts out of bounds.
fn out_of_bounds(mut scene: Scene) -> (Drawing, Edit) {
    giant(&mut scene);
    let CurveKind::Circle { c, radius } = scene.drawing.curves[0].kind else {
        unreachable!("a giant begins with its circle")
    };
    let (x, y) = scene.position(c);
    if scene.random.one_in(2) {
        let (a, b) = (scene.point(x + radius, y), scene.point(x - radius, y));
        let (a, b) = if scene.random.one_in(2) { (a, b) } else { (b, a) };
        scene.drawing.curves[0].kind = CurveKind::Arc { c, a, b };
    }
    let (dx, dy) = scene.random.pick(&[(1.0, 2.0), (-1.0, 2.0), (-1.0, -2.0), (0.0, 0.0)]);
    edit_of(scene, 0, x + dx, y + dy, 2)
}

/// Parameters at which the target is cut: anywhere, at and about its ends, close to each other.
fn cut_parameters(random: &mut Random, target: &Target) -> Vec<f64> {
    let count = random.pick(&[0, 1, 1, 2, 2, 2, 3, 3, 4, 5, 12]);
    let (span, step) = (target.span(), target.step());
    let mut parameters: Vec<f64> = Vec::new();
    for _ in 0..count {
        let end = random.pick(&[0.0, span]);
        let t = match (random.below(12), parameters.last()) {
            (0 | 1, Some(last)) => last + random.near(1e-6) * step,
            (2, _) => end + random.near(1e-9) * span,
            (3, _) => end + random.near(1e-6) * step,
            (4 | 5, _) => random.pick(&[0.0, 0.25, 0.5, 0.75, 1.0]) * span,
            (6, _) => random.between(0, 4) as f64,
            _ => random.unit() * span,
        };
        parameters.push(t);
    }
    parameters
}

/// Curves that share a point with the target, lie along it, or make its cuts unknown.
fn add_neighbours(scene: &mut Scene, target: &Target) {
    if scene.random.one_in(3) {
        let p = target.shared_point(scene.random);
        let (x, y) = scene.position(p);
        let (dx, dy) = (scene.random.between(-2, 2) as f64, scene.random.between(-2, 2) as f64);
        let q = scene.point(x + dx, y + dy);
        match scene.random.below(3) {
            0 => {
                let c = scene.any_point();
                scene.arc(c, p, q);
            }
            1 => {
                let radius = scene.random.pick(&[1.0, 2.0]);
                scene.curve(CurveKind::Circle { c: p, radius });
            }
            _ => scene.line(p, q),
        }
    }
    if scene.random.one_in(40) {
        let a = scene.any_point();
        let points = [a, a, 0, 0, 0, 0, 0, 0];
        scene.curve(CurveKind::Bezier { degree: 1, points });
    }
}

/// On a cut, a rounding off it, between two, before the first, behind the last, at an end.
pub fn pick(random: &mut Random, target: &Target, cuts: &[f64]) -> (f64, f64) {
    let span = target.span();
    let cut = |random: &mut Random| if cuts.is_empty() { 0.5 } else { random.pick(cuts) };
    let end = random.pick(&[0.0, span]);
    let t = match random.below(12) {
        0 => cut(random),
        1 => {
            let t = cut(random);
            random.nudged(t)
        }
        2 | 3 => (cut(random) + cut(random)) * 0.5,
        4 => (cut(random) + end) * 0.5,
        5 => end,
        6 => {
            let inside = random.nudged(1e-9);
            random.pick(&[inside, span - inside, 1e-9, span - 1e-9])
        }
        7 => random.unit() * 1.4 * span - 0.2 * span,
        _ => random.unit() * span,
    };
    let aside = random.pick(&[0.0, 0.0, 0.0, 0.1, -0.3, 2.0]);
    if let (CurveKind::Circle { .. }, true) = (target.kind, random.one_in(12)) {
        let radius = 1.0 / target.step();
        return target.frame(0.0).at(0.0, radius);
    }
    target.frame(t).at(0.0, aside)
}
