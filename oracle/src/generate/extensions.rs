//! Drawings to extend a line in: obstacles at one distance, nearly at one, about the least gap,
//! behind it, and relations that hold, fail, or fail afterwards, at times several at once.

use super::arches::{add_bezier, add_conic, add_loop};
use super::crowd::crowd;
use super::frame::Frame;
use super::obstacles::{add_far_out, add_obstacle};
use super::random::Random;
use super::relations::add_relation;
use super::scene::Scene;
use super::several_unmet::add_several;
use crate::drawing::*;
use crate::message::{Edit, Operation};

/// A line from 0 to its length along a frame; the end there is the one to move.
pub struct Extended {
    pub frame: Frame,
    pub length: f64,
    pub moved: Id,
    pub kept: Id,
}

/// A drawing with an extend of a line of it.
pub fn extension(random: &mut Random) -> (Drawing, Edit) {
    let frame = Frame::any(random);
    let mut scene = Scene::new(random, MAX_CURVES);
    scene.met |= !scene.random.one_in(3);
    let length = length(scene.random);
    let gaps = gaps(scene.random, length);
    // Numbers are the finer the nearer they are to 0: at an end, or where the first obstacle is.
    let first = gaps.first().copied().unwrap_or(1.0);
    let shift = scene.random.pick(&[0.0, -length, -length - first]);
    let extended = Extended::new(&mut scene, frame.moved(shift), length);
    let (first, rest) = gaps.split_at(scene.random.below(gaps.len() + 1));
    first.iter().for_each(|gap| extended.add_stop(&mut scene, *gap));
    let ends =
        scene.random.pick(&[[extended.kept, extended.moved], [extended.moved, extended.kept]]);
    let curve = scene.curve(CurveKind::Line { a: ends[0], b: ends[1] });
    let place = scene.drawing.curves.len() - 1;
    rest.iter().for_each(|gap| extended.add_stop(&mut scene, *gap));
    extended.hold(&mut scene);
    extended.relate(&mut scene, curve, &gaps);
    if scene.random.one_in(16) {
        add_several(&mut scene, &extended, curve);
    }
    let (x, y) = extended.pick(scene.random);
    let (mut drawing, random) = scene.plain();
    if random.one_in(8) {
        crowd(random, &mut drawing);
    }
    let curve = drawing.curves[place].id;
    (drawing, Edit { operation: Operation::Extend, curve, x, y })
}

fn length(random: &mut Random) -> f64 {
    let even = random.unit() * 12.0;
    let shares =
        [(4, 4.0), (3, 1.0), (2, 0.25), (2, 3.7), (5, even), (1, 1e-3), (2, 12_345.678), (1, 3e5)];
    let length = random.weighted(&shares);
    let speck = random.near(1e-12).abs();
    if random.one_in(30) {
        speck
    } else {
        length
    }
}

/// Obstacles of a crowded way: as many arches as have points for themselves.
const MANY: usize = 50;

/// How far beyond the end each obstacle stands, in the order in which they are added.
fn gaps(random: &mut Random, length: f64) -> Vec<f64> {
    let few = random.pick(&[0, 1, 1, 1, 2, 2, 2, 3, 3, 4, 8]);
    let count = if random.one_in(200) { MANY } else { few };
    let mut gaps: Vec<f64> = Vec::new();
    for _ in 0..count {
        let even = random.unit() * 10.0;
        let gap = match (random.below(16), gaps.last()) {
            (0 | 1, Some(last)) => {
                let beside = last + random.pick(&[1e-7, -1e-7]);
                random.nudged(beside)
            }
            (2 | 3, Some(last)) => last + random.near(1e-7),
            (4 | 5, _) => random.near(1e-6).abs(),
            (6, _) => -random.unit() * length,
            (7, _) => -length - even,
            (8, _) => random.pick(&[1e3, 2e5, 12_345.678, 2e-6, 3e-6, 1e-5, 0.25, 0.25]),
            (9..=11, _) => random.between(1, 5) as f64,
            _ => even,
        };
        gaps.push(gap);
    }
    gaps
}

impl Extended {
    fn new(scene: &mut Scene, frame: Frame, length: f64) -> Extended {
        let [kept, moved] = [0.0, length].map(|along| scene.put(&frame, along, 0.0));
        let free = !scene.random.one_in(4);
        if let Some(point) = scene.drawing.points.last_mut().filter(|_| free) {
            point.fixed = false;
        }
        Extended { frame, length, moved, kept }
    }

    /// Where the line's way meets an obstacle, a rounding off at times.
    fn add_stop(&self, scene: &mut Scene, gap: f64) {
        let exact = self.length + gap;
        let along = if scene.random.one_in(2) { scene.random.nudged(exact) } else { exact };
        let frame = self.frame.moved(along);
        match scene.random.below(48) {
            0 => add_far_out(scene, &self.frame),
            1..=23 => add_obstacle(scene, &frame),
            24..=35 => add_bezier(scene, &frame),
            36..=43 => add_conic(scene, &frame),
            _ => add_loop(scene, &frame),
        }
    }

    /// At times another curve uses the end that is to move.
    fn hold(&self, scene: &mut Scene) {
        if !scene.random.one_in(24) {
            return;
        }
        let other = scene.any_point();
        let points = [other, self.moved, other, 0, 0, 0, 0, 0];
        match scene.random.below(4) {
            0 => scene.line(self.moved, other),
            1 => {
                scene.curve(CurveKind::Circle { c: self.moved, radius: 2.0 });
            }
            2 => {
                scene.curve(CurveKind::Bezier { degree: 2, points });
            }
            _ => {
                scene.curve(CurveKind::Conic { a: other, apex: self.moved, b: other, rho: 0.5 });
            }
        }
    }

    fn relate(&self, scene: &mut Scene, line: Id, gaps: &[f64]) {
        for _ in 0..scene.random.pick(&[0, 0, 0, 1, 2, 4]) {
            add_relation(scene);
        }
        if !scene.random.one_in(4) {
            return;
        }
        let (p, q) = (self.kept, self.moved);
        let off = scene.random.near(1e-7);
        let value = (self.length + off).abs();
        let relation = match scene.random.below(6) {
            0 => Relation::Length { line, value },
            1 => Relation::Distance { p, q, value },
            2 => self.same_distance_after(scene, gaps.first().copied().unwrap_or(2.0), off),
            3 | 4 => self.beside_the_way(scene, line, off),
            _ => self.middle(scene, line, off),
        };
        let at = scene.random.below(scene.drawing.relations.len() + 1);
        scene.drawing.relations.insert(at, relation);
    }

    /// A point as far from the end before the extend as after it.
    fn same_distance_after(&self, scene: &mut Scene, gap: f64, off: f64) -> Relation {
        let p = scene.put(&self.frame, self.length + gap * 0.5, 3.0);
        let value = (gap * 0.5).hypot(3.0) + off;
        Relation::Distance { p, q: self.moved, value: value.clamp(0.0, MAX_VALUE) }
    }

    /// A line beside the way of the end, with that end on it, or collinear with the extended one.
    fn beside_the_way(&self, scene: &mut Scene, line: Id, off: f64) -> Relation {
        let drift = if scene.random.one_in(2) { off } else { scene.random.near(1e-7) };
        let a = scene.put(&self.frame, -2.0, 0.7e-8 + off);
        let b = scene.put(&self.frame, -1.0, 0.7e-8 + drift);
        let c = scene.curve(CurveKind::Line { a, b });
        if let Some(guide) = scene.drawing.curves.last_mut() {
            guide.infinite = false;
        }
        match scene.random.below(3) {
            0 => Relation::PointOnCurve { p: self.moved, c },
            1 => Relation::Collinear { a: c, b: line },
            _ => Relation::Collinear { a: line, b: c },
        }
    }

    fn middle(&self, scene: &mut Scene, line: Id, off: f64) -> Relation {
        let p = scene.put(&self.frame, self.length * 0.5, off);
        Relation::Midpoint { p, line }
    }

    /// By the end to move, about halfway, or by the other end.
    fn pick(&self, random: &mut Random) -> (f64, f64) {
        let even = random.unit();
        let half = random.nudged(0.5);
        let shares = [(14, 1.0), (2, 1.3), (1, 0.5), (1, half), (2, even), (2, 0.0), (1, -0.2)];
        let share = random.weighted(&shares);
        let aside = random.pick(&[0.0, 0.0, 0.0, 0.1, -0.4, 3.0, 700.0]);
        self.frame.at(self.length * share, aside)
    }
}
