//! Lines, arcs and circles that stop a line along a frame at its origin, nearly do, or run along.

use super::frame::Frame;
use super::scene::Scene;
use crate::drawing::*;

/// Adds an obstacle with a definite position.
pub fn add_obstacle(scene: &mut Scene, frame: &Frame) {
    type Obstacle = fn(&mut Scene, &Frame);
    const OBSTACLES: [(usize, Obstacle); 8] = [
        (8, pier),
        (3, stub),
        (2, overhang),
        (3, endless),
        (4, wheel),
        (3, touching),
        (4, arc),
        (1, along),
    ];
    let obstacle = scene.random.weighted(&OBSTACLES);
    obstacle(scene, frame);
}

fn line(scene: &mut Scene, a: Id, b: Id, infinite: bool) {
    let (a, b) = if scene.random.one_in(2) { (a, b) } else { (b, a) };
    scene.line(a, b);
    if let Some(line) = scene.drawing.curves.last_mut() {
        line.infinite = infinite;
    }
}

fn slant(scene: &mut Scene) -> f64 {
    let any = scene.random.unit() * 4.0 - 2.0;
    scene.random.weighted(&[(6, 0.0), (1, 1.0), (1, -0.5), (3, any)])
}

fn pier(scene: &mut Scene, frame: &Frame) {
    let slant = slant(scene);
    let (up, down) = (scene.random.pick(&[1.0, 2.0, 0.3]), scene.random.pick(&[1.0, 3.0, 0.7]));
    let top = scene.put(frame, slant * up, up);
    let foot = scene.put(frame, -slant * down, -down);
    line(scene, top, foot, false);
}

/// A line that stops at the support, or short of it or past it by about the slack of its share.
fn stub(scene: &mut Scene, frame: &Frame) {
    let (slant, up) = (slant(scene), scene.random.pick(&[1.0, 2.0, 10.0, 0.37]));
    let gap = scene.random.near(1e-10) * up;
    let top = scene.put(frame, slant * up, up);
    let foot = scene.put(frame, slant * gap, gap);
    line(scene, top, foot, false);
}

/// A line or arc whose end lies past the support by about the 1e-6 up to which an end there is made
/// coincident with it, by about the 1e-7 up to which that is met, or by a length between them.
fn overhang(scene: &mut Scene, frame: &Frame) {
    let between = 1e-7 + scene.random.unit() * 0.9e-6;
    let (loose, tight) = (scene.random.near(1e-6).abs(), scene.random.near(1e-7).abs());
    let past = scene.random.pick(&[between, between, loose, tight]);
    let end = scene.put(frame, 0.0, -past);
    if scene.random.one_in(3) {
        let radius = scene.random.pick(&[1.0, 5.0]);
        let (c, start) =
            (scene.put(frame, -radius, -past), scene.put(frame, -radius, -past + radius));
        scene.arc(c, end, start);
    } else {
        let up = scene.random.pick(&[1.0, 2.0, 0.3]);
        let top = scene.put(frame, 0.0, up);
        line(scene, top, end, false);
    }
}

/// An endless line; at times so slanted that it is met far out.
fn endless(scene: &mut Scene, frame: &Frame) {
    let slant = slant(scene) * scene.random.pick(&[1.0, 1.0, 1e5, 4e5]);
    let up = scene.random.pick(&[1.0, 0.5, 20.0]);
    let near = scene.put(frame, slant * up, up);
    let far = scene.put(frame, slant * (up + 1.0), up + 1.0);
    line(scene, near, far, true);
}

/// An endless line between the bounds that is met out of them, a million and a half further on.
pub fn add_far_out(scene: &mut Scene, frame: &Frame) {
    let near = scene.put(frame, 0.1e6, 1.0);
    let far = scene.put(frame, 0.8e6, 0.5);
    line(scene, near, far, true);
}

fn wheel(scene: &mut Scene, frame: &Frame) {
    let radius = scene.random.pick(&[5.0, 1.0, 2.5, 0.3]);
    let (cos, sin) = scene.random.pick(&[(1.0, 0.0), (0.6, 0.8), (0.8, -0.6), (-1.0, 0.0)]);
    let c = scene.put(frame, radius * cos, radius * sin);
    scene.curve(CurveKind::Circle { c, radius });
}

/// A circle that the support touches, or cuts so flatly that both hits lie about 1e-7 apart.
fn touching(scene: &mut Scene, frame: &Frame) {
    let radius = scene.random.pick(&[1.0, 0.5, 5.0, 1e-6, 1e-5]);
    let half = scene.random.near(0.5e-7);
    let flat = half * half / (2.0 * radius);
    let depth = scene.random.pick(&[0.0, 0.0, flat, -flat, 1e-14]);
    let c = scene.put(frame, 0.0, radius - depth);
    scene.curve(CurveKind::Circle { c, radius });
}

/// An arc that begins or ends at the support, but for about the slack of its turn; full at times.
fn arc(scene: &mut Scene, frame: &Frame) {
    let radius = scene.random.pick(&[1.0, 5.0, 2.5, 100.0]);
    let gap = scene.random.near(1e-10) * radius;
    let c = scene.put(frame, radius, 0.0);
    let here = scene.put(frame, 0.0, gap);
    let there = match scene.random.below(4) {
        0 => scene.put(frame, radius, radius),
        1 => scene.put(frame, radius, -radius),
        2 => scene.put(frame, 2.0 * radius, gap),
        _ => scene.put(frame, 0.0, gap),
    };
    let (a, b) = if scene.random.one_in(2) { (here, there) } else { (there, here) };
    scene.arc(c, a, b);
}

/// A line along the support, off it by about what still counts as an overlap.
fn along(scene: &mut Scene, frame: &Frame) {
    let (start, stop) = (scene.random.near(1e-9), scene.random.near(1e-9));
    let a = scene.put(frame, 0.0, start);
    let b = scene.put(frame, 1.5, stop);
    line(scene, a, b, false);
}
