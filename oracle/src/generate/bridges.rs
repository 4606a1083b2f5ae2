//! Bridges: decks, piers, arcs, wheels and arches that meet, touch and nearly miss each other.

use super::near_misses::{concentric, giant, nick, through_a_point, twin};
use super::random::Random;
use super::relations::add_relation;
use super::scene::Scene;
use crate::drawing::*;

/// How many curves and relations a drawing gets.
#[derive(Clone, Copy, Debug)]
pub enum Size {
    /// Up to eight curves: most inputs, so that many can be tried.
    Small,
    Middle,
    /// Ten curves.
    Footbridge,
    /// Sixty curves, the size of a working bridge.
    Bridge,
    /// Tables at their limits or next to them.
    Crowded,
    /// The largest image there is.
    Largest,
}

pub fn any_drawing(random: &mut Random) -> Drawing {
    let size = random.weighted(&[
        (860, Size::Small),
        (110, Size::Middle),
        (24, Size::Bridge),
        (5, Size::Crowded),
        (1, Size::Largest),
    ]);
    drawing(random, size)
}

pub fn drawing(random: &mut Random, size: Size) -> Drawing {
    let near_limit = |random: &mut Random, limit: usize| limit - random.pick(&[0, 0, 1, 2, 3]);
    let (points, curves, relations) = match size {
        Size::Small => (0, random.pick(&[0, 1, 2, 3, 3, 4, 5, 6, 8]), random.below(5)),
        Size::Middle => (0, 5 + random.below(20), random.below(16)),
        Size::Footbridge => (0, 10, 20),
        Size::Bridge => (0, 60, 20),
        Size::Crowded => {
            let any = [near_limit(random, MAX_POINTS), random.below(40)];
            (random.pick(&any), near_limit(random, MAX_CURVES), near_limit(random, MAX_RELATIONS))
        }
        Size::Largest => (MAX_POINTS, MAX_CURVES, MAX_RELATIONS),
    };
    let freeform = random.one_in(2);
    let mut scene = Scene::new(random, curves);
    build(&mut scene, points, relations, if freeform { &ARCHES } else { &[] });
    scene.finish()
}

/// A bridge whose relations are all met, of so many curves: without arches, or with Béziers of
/// degree 3 to 7 and conics.
pub fn with_all_met(random: &mut Random, curves: usize, relations: usize, arches: bool) -> Drawing {
    let mut scene = Scene::new(random, curves);
    scene.met = true;
    build(&mut scene, 0, relations, if arches { &HIGH_ARCHES } else { &[] });
    scene.plain().0
}

type Member = fn(&mut Scene);

const ARCHES: [(usize, Member); 2] = [(3, bezier), (2, conic)];
const HIGH_ARCHES: [(usize, Member); 2] = [(3, high_bezier), (2, conic)];

fn build(scene: &mut Scene, points: usize, relations: usize, arches: &[(usize, Member)]) {
    // Curves may use up to eight new points; the last ones stand on those already there.
    while scene.curves_left() > 0 {
        if scene.points_left() < 12 {
            let (a, b) = (scene.any_point(), scene.any_point());
            scene.line(a, b);
        } else {
            add_member(scene, arches);
        }
    }
    if scene.random.one_in(4) && scene.points_left() > 0 {
        let (x, y) = (scene.random.coordinate(), scene.random.coordinate());
        scene.point(x, y);
    }
    while scene.drawing.points.len() < points {
        let (x, y) = (scene.random.grid(), scene.random.grid());
        scene.point(x, y);
    }
    // Met relations are not always there to be found; a full table needs patience.
    let mut tries = 4 * relations;
    while scene.drawing.relations.len() < relations && tries > 0 {
        add_relation(scene);
        tries -= 1;
    }
    if let Some(repeated) = scene.drawing.relations.first().copied() {
        if relations == MAX_RELATIONS {
            scene.drawing.relations.resize(relations, repeated);
        }
    }
}

/// Adds one curve, sometimes none.
fn add_member(scene: &mut Scene, arches: &[(usize, Member)]) {
    const ANALYTIC: [(usize, Member); 14] = [
        (8, deck),
        (9, pier),
        (3, overlap),
        (5, arc),
        (2, full_arc),
        (5, wheel),
        (2, speck),
        (3, strut),
        (3, anywhere),
        (3, through_a_point),
        (2, twin),
        (1, concentric),
        (1, nick),
        (1, giant),
    ];
    let member = if !arches.is_empty() && scene.random.one_in(4) {
        scene.random.weighted(arches)
    } else {
        scene.random.weighted(&ANALYTIC)
    };
    member(scene);
}

/// A level line on the grid.
fn deck(scene: &mut Scene) {
    let (x, y) = (scene.random.grid(), scene.random.between(-2, 2) as f64);
    let length = scene.random.between(1, 12) as f64;
    let (tilt, a) = (scene.random.jitter(), scene.end(x, y));
    let b = scene.end(x + length, y + tilt);
    scene.line(a, b);
}

/// A line that crosses another, ends on it or stops near it.
fn pier(scene: &mut Scene) {
    let Some((a, b)) = scene.some_line() else { return deck(scene) };
    let ((ax, ay), (bx, by)) = (scene.position(a), scene.position(b));
    let even = scene.random.unit();
    let u = scene.random.pick(&[0.0, 0.25, 0.5, 0.5, 0.75, 1.0, 1.25, even]);
    let (foot_x, foot_y) = (ax + (bx - ax) * u, ay + (by - ay) * u);
    let (dx, dy) = (scene.random.between(-2, 2) as f64, scene.random.between(1, 4) as f64);
    let gap = scene.random.jitter();
    let below = scene.random.pick(&[0.0, 0.0, 0.5, 1.0, -0.5]);
    let top = scene.end(foot_x + dx, foot_y + dy);
    let foot = scene.end(foot_x - dx * below, foot_y - dy * below + gap);
    scene.line(top, foot);
}

/// A line along another's support: overlapping, touching at an end or further out.
fn overlap(scene: &mut Scene) {
    let Some((a, b)) = scene.some_line() else { return deck(scene) };
    let ((ax, ay), (bx, by)) = (scene.position(a), scene.position(b));
    let from = scene.random.pick(&[-1.0, -0.5, 0.25, 0.5, 1.0, 1.5]);
    let to = scene.random.pick(&[0.0, 0.75, 1.0, 2.0]);
    let off = scene.random.jitter();
    let at = |u: f64| (ax + (bx - ax) * u, ay + (by - ay) * u + off);
    let (start, stop) = (at(from), at(to));
    let p = scene.end(start.0, start.1);
    let q = scene.end(stop.0, stop.1);
    scene.line(p, q);
}

/// Grid directions of length 5 and axis directions: exact positions on circles.
const RIM: [(f64, f64); 12] = [
    (5.0, 0.0),
    (4.0, 3.0),
    (3.0, 4.0),
    (0.0, 5.0),
    (-3.0, 4.0),
    (-4.0, 3.0),
    (-5.0, 0.0),
    (-4.0, -3.0),
    (-3.0, -4.0),
    (0.0, -5.0),
    (3.0, -4.0),
    (4.0, -3.0),
];

fn arc(scene: &mut Scene) {
    let (x, y) = (scene.random.grid(), scene.random.between(-3, 3) as f64);
    let scale = scene.random.pick(&[0.2, 0.4, 0.5, 1.0, 1.0, 2.0]);
    let (from, to) = (scene.random.pick(&RIM), scene.random.pick(&RIM));
    let off = scene.random.jitter();
    let c = scene.end(x, y);
    let (x, y) = scene.position(c);
    let a = scene.end(x + from.0 * scale, y + from.1 * scale + off);
    let b = scene.end(x + to.0 * scale, y + to.1 * scale);
    scene.arc(c, a, b);
}

/// An arc whose ends lie in one position or almost: full, or just not.
fn full_arc(scene: &mut Scene) {
    let (x, y) = (scene.random.grid(), scene.random.grid());
    let (dx, dy) = scene.random.pick(&RIM);
    let (along, across) = (scene.random.jitter(), scene.random.jitter());
    let c = scene.point(x, y);
    let a = scene.point(x + dx, y + dy);
    let b = scene.point(x + dx + along, y + dy + across);
    scene.arc(c, a, b);
}

/// A circle: through grid positions, or tangent to a line but for a jitter.
fn wheel(scene: &mut Scene) {
    let (x, y) = (scene.random.grid(), scene.random.between(-4, 4) as f64);
    let size = scene.random.pick(&[1.0, 2.0, 2.5, 5.0, 0.5, y.abs()]);
    let radius = (size + scene.random.jitter()).clamp(*RADIUS.start(), *RADIUS.end());
    let radius = if scene.random.one_in(40) { scene.random.pick(&[1e-6, 1e6]) } else { radius };
    let c = scene.end(x, y);
    scene.curve(CurveKind::Circle { c, radius });
}

/// A line of no length, or nearly none.
fn speck(scene: &mut Scene) {
    let (x, y) = (scene.random.grid(), scene.random.grid());
    let off = scene.random.jitter();
    let a = scene.end(x, y);
    let b = scene.point(x + off, y);
    scene.line(a, b);
}

/// A line between two points of the scene.
fn strut(scene: &mut Scene) {
    if scene.drawing.points.is_empty() {
        return deck(scene);
    }
    let (a, b) = (scene.any_point(), scene.any_point());
    scene.line(a, b);
}

/// A line between positions of every size and sign.
fn anywhere(scene: &mut Scene) {
    let [ax, ay, bx, by] = std::array::from_fn(|_| scene.random.coordinate());
    let a = scene.point(ax, ay);
    let b = scene.point(bx, by);
    scene.line(a, b);
}

/// An arch of degree 1 to 7; control points may repeat.
fn bezier(scene: &mut Scene) {
    bezier_from(scene, 1);
}

fn high_bezier(scene: &mut Scene) {
    bezier_from(scene, 3);
}

fn bezier_from(scene: &mut Scene, least: i64) {
    let degree = scene.random.between(least, i64::from(MAX_DEGREE)) as u8;
    let (x, y) = (scene.random.grid(), scene.random.between(-3, 3) as f64);
    let rise = scene.random.pick(&[0.0, 1.0, 3.0, -2.0]);
    let mut points = [0; SLOTS];
    for (place, slot) in points.iter_mut().take(usize::from(degree) + 1).enumerate() {
        let inner = place > 0 && place < usize::from(degree);
        let lift = if inner { rise + scene.random.grid() * 0.25 } else { 0.0 };
        *slot = scene.end(x + place as f64, y + lift);
    }
    scene.curve(CurveKind::Bezier { degree, points });
}

/// A conic from flat to sharp.
fn conic(scene: &mut Scene) {
    const RHO: [f64; 10] =
        [0.5, 0.5, 0.414_213_562, 0.1, 0.9, 0.999, 1e-6, 5e-324, 1e-300, 1.0 - f64::EPSILON / 2.0];
    let (x, y) = (scene.random.grid(), scene.random.between(-3, 3) as f64);
    let rise = scene.random.pick(&[0.0, 1.0, 2.0, -4.0]);
    let even = scene.random.unit().max(1e-9);
    let rho = if scene.random.one_in(3) { even } else { scene.random.pick(&RHO) };
    let a = scene.end(x, y);
    let apex = scene.end(x + 2.0, y + rise);
    let b = scene.end(x + 4.0, y);
    scene.curve(CurveKind::Conic { a, apex, b, rho });
}
