//! Members that stand where a tolerance decides: beside an end, a twin, a centre, a rim.

use super::scene::Scene;
use crate::drawing::*;

/// A line through some point of the scene, or past it by a small offset.
pub fn through_a_point(scene: &mut Scene) {
    let Some((x, y)) = some_position(scene) else { return };
    let (dx, dy) = (scene.random.between(-2, 2) as f64, scene.random.between(1, 3) as f64);
    let off = scene.random.maybe_small_offset();
    let start = scene.point(x + off + dx, y + dy);
    let stop = scene.point(x + off - dx, y - dy);
    scene.line(start, stop);
}

/// A line beside another, as long, moved or turned by a small offset.
pub fn twin(scene: &mut Scene) {
    let Some((a, b)) = scene.some_line() else { return };
    let ((ax, ay), (bx, by)) = (scene.position(a), scene.position(b));
    let (near, far) = (scene.random.small_offset(), scene.random.small_offset());
    let far = if scene.random.one_in(2) { near } else { far };
    let upright = (bx - ax).abs() < (by - ay).abs();
    let moved = |x: f64, y: f64, by: f64| if upright { (x + by, y) } else { (x, y + by) };
    let (start, stop) = (moved(ax, ay, near), moved(bx, by, far));
    let start = scene.point(start.0, start.1);
    let stop = scene.point(stop.0, stop.1);
    scene.line(start, stop);
}

/// A circle about a point of the scene, or about a position a small offset from it.
pub fn concentric(scene: &mut Scene) {
    let Some((x, y)) = some_position(scene) else { return };
    let off = scene.random.maybe_small_offset();
    let c = scene.point(x + off, y);
    let radius = scene.random.pick(&[1.0, 2.0, 5.0]) + scene.random.jitter();
    scene.curve(CurveKind::Circle { c, radius });
}

/// A circle and two upright lines that end at its turn 0, one just inside of the rim and one
/// just outside: both ends cut, at one parameter, which may be 0 for one and −0 for the other.
pub fn nick(scene: &mut Scene) {
    if scene.curves_left() < 3 {
        return;
    }
    let (x, radius) = (scene.random.grid(), scene.random.pick(&[1.0, 2.0, 5.0]));
    let c = scene.point(x, 0.0);
    scene.curve(CurveKind::Circle { c, radius });
    let depth = scene.random.pick(&[0.4e-6, 0.7e-6, 0.9e-6]);
    let depth = if scene.random.one_in(2) { depth } else { -depth };
    let zeros = scene.random.pick(&[(0.0, -0.0), (-0.0, 0.0), (0.0, 0.0)]);
    for (at, y) in [(x + radius - depth, zeros.0), (x + radius + depth, zeros.1)] {
        let rise = scene.random.pick(&[-1.0, 3.0]);
        let rim = scene.point(at, y);
        let tip = scene.point(at, rise);
        scene.line(rim, tip);
    }
}

/// A circle that reaches out of the drawing's bounds, and an endless line through its centre.
pub fn giant(scene: &mut Scene) {
    if scene.curves_left() < 2 {
        return;
    }
    let x = scene.random.pick(&[MAX_COORDINATE, -MAX_COORDINATE, 0.0]);
    let radius = scene.random.pick(&[MAX_COORDINATE, 0.5 * MAX_COORDINATE, 2.0]);
    let y = scene.random.grid();
    let c = scene.point(x, y);
    scene.curve(CurveKind::Circle { c, radius });
    let (dx, dy) = scene.random.pick(&[(0.0, 1.0), (1.0, 0.0), (3.0, 4.0)]);
    let start = scene.point(x - dx, y - dy);
    let stop = scene.point(x + dx, y + dy);
    scene.line(start, stop);
    if let Some(line) = scene.drawing.curves.last_mut() {
        line.infinite = true;
    }
}

fn some_position(scene: &mut Scene) -> Option<(f64, f64)> {
    if scene.drawing.points.is_empty() {
        return None;
    }
    let id = scene.any_point();
    Some(scene.position(id))
}
