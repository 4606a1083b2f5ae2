//! Curves to trim and split: a line, an arc or a circle, with what measures the whole of it.

use super::frame::Frame;
use super::random::Random;
use super::scene::Scene;
use crate::drawing::*;
use cad_geom::Vec2;
use cad_sketch::Shape;

/// A curve whose points stand in the scene, and its shape.
pub struct Target {
    pub kind: CurveKind,
    pub shape: Shape,
}

impl Target {
    pub fn any(scene: &mut Scene, frame: &Frame) -> Target {
        match scene.random.below(3) {
            0 => line(scene, frame),
            1 => arc(scene, frame),
            _ => circle(scene, frame),
        }
    }

    pub fn span(&self) -> f64 {
        self.shape.range().1
    }

    /// The parameter's change for a step of length 1, roughly.
    pub fn step(&self) -> f64 {
        match self.shape {
            Shape::Line { a, b } => 1.0 / a.dist(b).max(1e-12),
            Shape::Round { r, .. } => 1.0 / r.max(1e-12),
        }
    }

    pub fn frame(&self, t: f64) -> Frame {
        let whole = if matches!(self.kind, CurveKind::Line { .. }) { t } else { t.rem_euclid(4.0) };
        Frame::on(&self.shape, whole)
    }

    /// A point of the curve that another curve may share: an end, or a circle's centre.
    pub fn shared_point(&self, random: &mut Random) -> Id {
        match self.kind {
            CurveKind::Line { a, b } => random.pick(&[a, b]),
            CurveKind::Arc { c, a, b } => random.pick(&[a, b, c]),
            CurveKind::Circle { c, .. } => c,
            CurveKind::Bezier { .. } | CurveKind::Conic { .. } => unreachable!("never a target"),
        }
    }
}

fn size(random: &mut Random) -> f64 {
    let (even, odd) = (random.unit() * 12.0 + 1e-3, random.unit() * 1e4);
    random.weighted(&[
        (5, 4.0),
        (3, 1.0),
        (2, 5.0),
        (1, 1e-3),
        (1, 1e3),
        (1, 1e5),
        (4, even),
        (1, odd),
    ])
}

fn point_at(scene: &mut Scene, p: Vec2) -> Id {
    scene.point(p.x, p.y)
}

fn line(scene: &mut Scene, frame: &Frame) -> Target {
    let length =
        if scene.random.one_in(40) { scene.random.small_offset() } else { size(scene.random) };
    let ends = [0.0, length].map(|along| scene.put(frame, along, 0.0));
    let [a, b] = if scene.random.one_in(3) { [ends[1], ends[0]] } else { ends };
    let shape = Shape::Line { a: position(scene, a), b: position(scene, b) };
    Target { kind: CurveKind::Line { a, b }, shape }
}

/// At the frame's origin, or so that the rim passes there.
fn centre(random: &mut Random, frame: &Frame, radius: f64) -> (f64, f64) {
    let (along, across) = random.pick(&[(0.0, 0.0), (0.0, 0.0), (-radius, 0.0), (0.0, radius)]);
    frame.at(along, across)
}

/// An arc of any sweep, a full one or just not a full one at times.
fn arc(scene: &mut Scene, frame: &Frame) -> Target {
    let radius = size(scene.random);
    let (x, y) = centre(scene.random, frame, radius);
    let centre = Vec2::new(x, y);
    let rim = Shape::circle(centre, radius);
    let any = [scene.random.unit() * 4.0, scene.random.unit() * 4.0];
    let start = scene.random.weighted(&[(3, 0.0), (1, 1.0), (1, 2.5), (1, 3.0), (4, any[0])]);
    let almost = 4.0 - scene.random.near(1e-12).abs();
    let shares = [(3, 1.0), (2, 2.0), (2, 3.0), (1, 3.5), (1, 1e-6), (1, almost), (6, any[1])];
    let sweep = scene.random.weighted(&shares);
    let c = point_at(scene, centre);
    let a = point_at(scene, rim.point(start));
    let b = point_at(scene, rim.point((start + sweep).rem_euclid(4.0)));
    let shape = Shape::arc(position(scene, c), position(scene, a), position(scene, b));
    Target { kind: CurveKind::Arc { c, a, b }, shape }
}

pub fn circle(scene: &mut Scene, frame: &Frame) -> Target {
    let radius = size(scene.random).clamp(*RADIUS.start(), *RADIUS.end());
    let (x, y) = centre(scene.random, frame, radius);
    let c = scene.point(x, y);
    Target {
        kind: CurveKind::Circle { c, radius },
        shape: Shape::circle(position(scene, c), radius),
    }
}

fn position(scene: &Scene, id: Id) -> Vec2 {
    let (x, y) = scene.position(id);
    Vec2::new(x, y)
}

/// Relations that name the target or its points: those that measure the whole of it, and those
/// that outlive a cut.
pub fn add_relations(scene: &mut Scene, target: Id) {
    for _ in 0..scene.random.pick(&[0, 1, 1, 2, 3, 5]) {
        let kind = scene.drawing.curve(target).expect("it stands in the scene").kind;
        let relation = match kind {
            CurveKind::Line { a, b } => on_line(scene, target, [a, b]),
            _ => on_round(scene, target),
        };
        if let Some(relation) = relation {
            scene.drawing.relations.push(relation);
        }
    }
}

fn other(scene: &mut Scene, target: Id, fits: fn(&CurveKind) -> bool) -> Option<Id> {
    let others = scene.drawing.curves.iter().filter(|c| c.id != target && fits(&c.kind));
    let ids: Vec<Id> = others.map(|curve| curve.id).collect();
    (!ids.is_empty()).then(|| scene.random.pick(&ids))
}

/// A point of the scene, or a new one that no curve uses.
fn some_point(scene: &mut Scene) -> Id {
    if scene.random.one_in(2) {
        let (x, y) = (scene.random.grid(), scene.random.grid());
        return scene.point(x, y);
    }
    scene.any_point()
}

fn in_any_order(random: &mut Random, a: Id, b: Id) -> (Id, Id) {
    if random.one_in(2) {
        (a, b)
    } else {
        (b, a)
    }
}

fn on_line(scene: &mut Scene, line: Id, ends: [Id; 2]) -> Option<Relation> {
    let p = some_point(scene);
    let value = scene.random.pick(&[4.0, 0.0, -0.0, 2.5]);
    Some(match scene.random.below(8) {
        0 | 1 => Relation::Length { line, value },
        2 => {
            let b = other(scene, line, CurveKind::is_line)?;
            let (a, b) = in_any_order(scene.random, line, b);
            Relation::Equal { a, b }
        }
        3 => Relation::Midpoint { p, line },
        4 => {
            let b = other(scene, line, CurveKind::is_line)?;
            let (a, b) = in_any_order(scene.random, line, b);
            Relation::Collinear { a, b }
        }
        5 => Relation::PointOnCurve { p, c: line },
        6 if p != ends[1] => Relation::Distance { p, q: ends[1], value },
        _ if p != ends[0] => Relation::Coincident { p: ends[0], q: p },
        _ => return None,
    })
}

fn on_round(scene: &mut Scene, round: Id) -> Option<Relation> {
    let p = some_point(scene);
    let value = scene.random.pick(&[1.0, 4.0, 0.0, -0.0]);
    Some(match scene.random.below(6) {
        0 => Relation::ArcLength { round, value },
        1 => Relation::ArcSweep { round, value },
        2 | 3 => {
            let b = other(scene, round, CurveKind::is_round)?;
            let (a, b) = in_any_order(scene.random, round, b);
            Relation::Equal { a, b }
        }
        4 => Relation::PointOnCurve { p, c: round },
        _ => {
            let q = scene.any_point();
            if p == q {
                return None;
            }
            Relation::Distance { p, q, value }
        }
    })
}
