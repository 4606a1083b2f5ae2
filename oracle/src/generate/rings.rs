//! Lists of edits that cut circles: a drawing to start from, and edits that follow a circle's pieces.

use super::crowd::crowd;
use super::frame::Frame;
use super::near_misses::{concentric, nick};
use super::random::Random;
use super::scene::Scene;
use super::targets::{self, Target};
use super::{bridges, cuts, edits};
use crate::convert::{curve_place, to_sketch};
use crate::drawing::*;
use crate::families::Families;
use crate::message::{Edit, Operation};
use cad_sketch::intersections;

/// How many edits a list has.
pub fn length(random: &mut Random) -> usize {
    random.pick(&[5, 5, 6, 8, 10, 12, 25])
}

/// Mostly a circle and up to three parts more, with what crosses them; else any bridge.
pub fn drawing(random: &mut Random) -> Drawing {
    if random.one_in(8) {
        return bridges::any_drawing(random);
    }
    let mut scene = Scene::new(random, MAX_CURVES);
    crossed_circle(&mut scene);
    for _ in 0..scene.random.below(4) {
        add_part(&mut scene);
    }
    let (mut drawing, random) = scene.plain();
    if random.one_in(60) {
        crowd(random, &mut drawing);
    }
    drawing
}

fn add_part(scene: &mut Scene) {
    type Part = fn(&mut Scene);
    const PARTS: [(usize, Part); 5] =
        [(4, crossed_circle), (4, crossed), (2, concentric), (2, apart), (1, nick)];
    let part = scene.random.weighted(&PARTS);
    part(scene);
}

fn crossed_circle(scene: &mut Scene) {
    let frame = Frame::any(scene.random);
    let target = targets::circle(scene, &frame);
    cuts::add_crossed(scene, &target);
}

/// A line, an arc or a circle, and what crosses it.
fn crossed(scene: &mut Scene) {
    let frame = Frame::any(scene.random);
    let target = Target::any(scene, &frame);
    cuts::add_crossed(scene, &target);
}

/// A circle so far from the others that most often nothing crosses it.
fn apart(scene: &mut Scene) {
    let (x, y) = (scene.random.grid(), scene.random.grid());
    let c = scene.point(x - 3000.0, y + 2000.0);
    scene.curve(CurveKind::Circle { c, radius: 1.5 });
}

/// An edit that two times in three picks a standing member of a circle's family, else anything.
pub fn edit(random: &mut Random, drawing: &Drawing, families: &Families) -> Edit {
    let mut members = families.members_of_circles();
    members.retain(|id| drawing.curve(*id).is_some());
    if members.is_empty() || random.one_in(3) {
        return edits::edit(random, drawing);
    }
    let curve = random.pick(&members);
    let operation =
        random.weighted(&[(8, Operation::Trim), (12, Operation::Split), (1, Operation::Extend)]);
    let (target, crossings) = target_at(drawing, curve);
    let (x, y) = cuts::pick(random, &target, &crossings);
    Edit { operation, curve, x, y }
}

/// A curve of the drawing as a target, and the parameters at which it crosses the others' endless
/// lines and full circles.
fn target_at(drawing: &Drawing, curve: Id) -> (Target, Vec<f64>) {
    let sketch = to_sketch(drawing);
    let place = curve_place(drawing, curve).expect("it stands in the drawing");
    let shape = sketch.shape(place).expect("a circle's family has no freeform member");
    let others = (0..drawing.curves.len()).filter(|other| *other != place);
    let crossings = others.filter_map(|other| sketch.shape(other)).flat_map(|other| {
        let positions = intersections(&shape, &other).into_iter();
        positions.map(|position| shape.param(position))
    });
    let crossings = crossings.filter(|t| *t <= shape.range().1).collect();
    (Target { kind: drawing.curves[place].kind, shape }, crossings)
}
