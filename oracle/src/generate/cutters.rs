//! Curves that cut another one where a frame stands on it: across, ending there, touching, beside.

use super::frame::Frame;
use super::scene::Scene;
use crate::drawing::*;

/// Adds one cutter, which meets the curve along the frame at the frame's origin or nearly.
pub fn add_cutter(scene: &mut Scene, frame: &Frame) {
    type Cutter = fn(&mut Scene, &Frame);
    const CUTTERS: [(usize, Cutter); 10] = [
        (6, crossing),
        (5, ending),
        (3, beside),
        (3, touching),
        (3, wheel),
        (4, arc_ending),
        (2, arc_across),
        (1, full_arc),
        (3, endless),
        (4, twice),
    ];
    let cutter = scene.random.weighted(&CUTTERS);
    cutter(scene, frame);
}

/// A point in the frame, or sometimes one that stands there already.
fn put_or_share(scene: &mut Scene, frame: &Frame, along: f64, across: f64) -> Id {
    let (x, y) = frame.at(along, across);
    let at_hand = scene.drawing.points.iter().find(|p| (p.x - x).abs() + (p.y - y).abs() < 3e-6);
    match at_hand.map(|point| point.id) {
        Some(id) if scene.random.one_in(4) => id,
        _ => scene.point(x, y),
    }
}

fn bounded(scene: &mut Scene, a: Id, b: Id) {
    let (a, b) = if scene.random.one_in(2) { (a, b) } else { (b, a) };
    let before = scene.drawing.curves.len();
    scene.line(a, b);
    if scene.drawing.curves.len() > before {
        scene.drawing.curves[before].infinite = scene.random.one_in(30);
    }
}

fn slant(scene: &mut Scene) -> f64 {
    let any = scene.random.unit() * 4.0 - 2.0;
    scene.random.weighted(&[(5, 0.0), (1, 0.5), (1, -1.0), (2, any)])
}

fn reach(scene: &mut Scene) -> f64 {
    let any = scene.random.unit() * 5.0;
    scene.random.pick(&[1.0, 1.0, 2.0, 0.5, 1e-3, 1e3, any])
}

fn crossing(scene: &mut Scene, frame: &Frame) {
    let (slant, up, down) = (slant(scene), reach(scene), reach(scene));
    let top = put_or_share(scene, frame, slant * up, up);
    let foot = put_or_share(scene, frame, -slant * down, -down);
    bounded(scene, top, foot);
}

/// A line that stops at the curve, short of it or past it by about the tolerance.
fn ending(scene: &mut Scene, frame: &Frame) {
    let (slant, up) = (slant(scene), reach(scene));
    let gap = scene.random.near(1e-6);
    let top = put_or_share(scene, frame, slant * up, up);
    let foot = put_or_share(scene, frame, slant * gap, gap);
    bounded(scene, top, foot);
}

/// A line along the curve, beside it by about the tolerance, that begins at the frame's origin.
fn beside(scene: &mut Scene, frame: &Frame) {
    let length = reach(scene);
    let gap = scene.random.near(1e-6);
    let drift = if scene.random.one_in(3) { scene.random.near(1e-6) } else { 0.0 };
    let start = put_or_share(scene, frame, 0.0, gap);
    let stop = put_or_share(scene, frame, length, gap + drift);
    bounded(scene, start, stop);
}

/// A circle that touches the curve but for about a tolerance or a rounding.
fn touching(scene: &mut Scene, frame: &Frame) {
    let radius = scene.random.pick(&[1.0, 2.0, 0.5, 5.0, 0.3, 100.0]);
    let (depth, off) = (scene.random.near(1e-6), scene.random.small_offset());
    let depth = scene.random.pick(&[0.0, depth, depth * depth, off]);
    let side = scene.random.pick(&[1.0, -1.0]);
    let c = put_or_share(scene, frame, 0.0, side * (radius - depth));
    scene.curve(CurveKind::Circle { c, radius });
}

/// A circle through the frame's origin.
fn wheel(scene: &mut Scene, frame: &Frame) {
    let radius = scene.random.pick(&[5.0, 2.5, 1.0, 10.0]);
    let (cos, sin) = scene.random.pick(&[(0.6, 0.8), (0.8, -0.6), (1.0, 0.0), (-0.6, -0.8)]);
    let c = put_or_share(scene, frame, radius * cos, radius * sin);
    let radius = radius + scene.random.jitter();
    scene.curve(CurveKind::Circle { c, radius });
}

/// An arc that stops at the curve, short of it or past it by about the tolerance.
fn arc_ending(scene: &mut Scene, frame: &Frame) {
    let gap = scene.random.near(1e-6);
    let (x, y) = scene.random.pick(&[(1.0, 0.0), (-2.0, 0.0), (0.6, 0.8), (3.0, 4.0), (0.0, 1.0)]);
    let c = put_or_share(scene, frame, x, y);
    let here = put_or_share(scene, frame, 0.0, gap);
    let (turned_x, turned_y) =
        scene.random.pick(&[(x - y, y + x), (x + y, y - x), (2.0 * x, 2.0 * y)]);
    let there = put_or_share(scene, frame, turned_x, turned_y);
    let (a, b) = if scene.random.one_in(2) { (here, there) } else { (there, here) };
    scene.arc(c, a, b);
}

fn arc_across(scene: &mut Scene, frame: &Frame) {
    let radius = scene.random.pick(&[1.0, 5.0, 2.5]);
    let c = put_or_share(scene, frame, radius, 0.0);
    let before = put_or_share(scene, frame, radius, radius);
    let after = put_or_share(scene, frame, radius, -radius);
    let (a, b) = if scene.random.one_in(4) { (after, before) } else { (before, after) };
    scene.arc(c, a, b);
}

fn full_arc(scene: &mut Scene, frame: &Frame) {
    let (off, across) = (scene.random.jitter(), scene.random.jitter());
    let start = scene.random.pick(&[0.0, 2.0]);
    let c = put_or_share(scene, frame, 1.0, 0.0);
    let a = scene.put(frame, start, 0.0);
    let b = scene.put(frame, start + across, off);
    scene.arc(c, a, b);
}

/// An endless line whose two points lie to one side of the curve.
fn endless(scene: &mut Scene, frame: &Frame) {
    let (slant, up) = (slant(scene), reach(scene));
    let near = put_or_share(scene, frame, slant * up, up);
    let far = put_or_share(scene, frame, slant * (up + 1.0), up + 1.0);
    let before = scene.drawing.curves.len();
    scene.line(near, far);
    if let Some(line) = scene.drawing.curves.get_mut(before) {
        line.infinite = true;
    }
}

/// Two cutters at one position, or about a tolerance apart.
fn twice(scene: &mut Scene, frame: &Frame) {
    let apart = scene.random.near(1e-6);
    if scene.random.one_in(2) {
        crossing(scene, frame);
        ending(scene, &frame.moved(apart));
    } else {
        ending(scene, frame);
        add_cutter(scene, &frame.moved(apart));
    }
}
