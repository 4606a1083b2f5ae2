//! A drawing under construction: tables with rising ids, filled piece by piece.

use super::frame::Frame;
use super::random::Random;
use crate::drawing::*;

pub struct Scene<'r> {
    pub random: &'r mut Random,
    pub drawing: Drawing,
    /// Whether every relation is to be met, as an extend wants it.
    pub met: bool,
    /// How many curves the drawing is to have.
    pub curves_wanted: usize,
    numbering: Numbering,
    last_point: Id,
    last_curve: Id,
}

/// How ids are given out.
#[derive(Clone, Copy)]
enum Numbering {
    /// One rising number for points and curves, as edits give them.
    Shared,
    /// One rising number for points and curves, with numbers left out.
    Gaps,
    /// A number of its own for each table, so that one number stands in both.
    Apart,
}

impl<'r> Scene<'r> {
    pub fn new(random: &'r mut Random, curves_wanted: usize) -> Self {
        let numbering =
            random.weighted(&[(6, Numbering::Shared), (1, Numbering::Gaps), (2, Numbering::Apart)]);
        let met = !random.one_in(4);
        let drawing = Drawing::empty();
        Scene { random, drawing, met, curves_wanted, numbering, last_point: 0, last_curve: 0 }
    }

    fn fresh(&mut self, last: Id) -> Id {
        let highest = self.last_point.max(self.last_curve);
        match self.numbering {
            Numbering::Shared => highest + 1,
            Numbering::Gaps => highest + 1 + self.random.below(3) as Id,
            Numbering::Apart => last + 1,
        }
    }

    pub fn points_left(&self) -> usize {
        MAX_POINTS - self.drawing.points.len()
    }

    pub fn curves_left(&self) -> usize {
        self.curves_wanted - self.drawing.curves.len()
    }

    pub fn point(&mut self, x: f64, y: f64) -> Id {
        let id = self.fresh(self.last_point);
        let fixed = self.random.one_in(12);
        // Jitter and far pieces may move a point past the bounds.
        let within = |v: f64| v.clamp(-MAX_COORDINATE, MAX_COORDINATE);
        self.drawing.points.push(Point { id, x: within(x), y: within(y), fixed });
        self.last_point = id;
        id
    }

    /// A point at this position, or sometimes one that stands there or elsewhere already.
    pub fn end(&mut self, x: f64, y: f64) -> Id {
        let points = &self.drawing.points;
        if points.is_empty() || !self.random.one_in(3) {
            return self.point(x, y);
        }
        let near = points.iter().find(|p| (p.x - x).abs() + (p.y - y).abs() < 1e-5);
        match near {
            Some(point) => point.id,
            None if self.random.one_in(3) => self.any_point(),
            None => self.point(x, y),
        }
    }

    /// A point by its coordinates in a frame.
    pub fn put(&mut self, frame: &Frame, along: f64, across: f64) -> Id {
        let (x, y) = frame.at(along, across);
        self.point(x, y)
    }

    pub fn any_point(&mut self) -> Id {
        let at = self.random.below(self.drawing.points.len());
        self.drawing.points[at].id
    }

    pub fn position(&self, id: Id) -> (f64, f64) {
        let point = self.drawing.point(id).expect("the scene gave this id out");
        (point.x, point.y)
    }

    pub fn curve(&mut self, kind: CurveKind) -> Id {
        let id = self.fresh(self.last_curve);
        let infinite = kind.is_line() && self.random.one_in(9);
        let construction = self.random.one_in(6);
        let centerline = self.random.one_in(12);
        self.drawing.curves.push(Curve { id, kind, construction, centerline, infinite });
        self.last_curve = id;
        id
    }

    /// A line unless both ends are one point.
    pub fn line(&mut self, a: Id, b: Id) {
        if a != b {
            self.curve(CurveKind::Line { a, b });
        }
    }

    /// An arc unless two of its points are one.
    pub fn arc(&mut self, c: Id, a: Id, b: Id) {
        if c != a && c != b && a != b {
            self.curve(CurveKind::Arc { c, a, b });
        }
    }

    /// The ends of some line of the scene.
    pub fn some_line(&mut self) -> Option<(Id, Id)> {
        let curves = &self.drawing.curves;
        if curves.is_empty() {
            return None;
        }
        let start = self.random.below(curves.len());
        curves[start..].iter().chain(&curves[..start]).find_map(|curve| match curve.kind {
            CurveKind::Line { a, b } => Some((a, b)),
            _ => None,
        })
    }

    /// The drawing as it stands, and the source of numbers back.
    pub fn plain(mut self) -> (Drawing, &'r mut Random) {
        self.set_next_id();
        (self.drawing, self.random)
    }

    fn set_next_id(&mut self) {
        self.drawing.next_id = self.last_point.max(self.last_curve) + 1;
    }

    /// The finished drawing, at times on another scale or with ids up against their limit.
    pub fn finish(mut self) -> Drawing {
        self.set_next_id();
        let large = (1 << 16) as f64;
        let scale = self.random.weighted(&[(40, 1.0), (2, large), (1, 1.0 / large), (1, 1e-7)]);
        if scale != 1.0 {
            rescale(&mut self.drawing, scale);
        }
        let full = self.points_left() == 0 || self.drawing.curves.len() == MAX_CURVES;
        if self.random.one_in(if full { 3 } else { 12 }) {
            let room = Id::MAX - self.drawing.next_id;
            let spare = self.random.pick(&[0, 0, 1, 2, 3, 4, 5, 6, 1000]);
            if self.random.one_in(2) {
                self.drawing.next_id += room - spare;
            } else {
                raise_ids(&mut self.drawing, room - spare);
            }
        }
        self.drawing
    }
}

/// Multiplies every measure of a drawing, within its bounds.
fn rescale(drawing: &mut Drawing, scale: f64) {
    let coordinate = |v: f64| (v * scale).clamp(-MAX_COORDINATE, MAX_COORDINATE);
    for point in &mut drawing.points {
        (point.x, point.y) = (coordinate(point.x), coordinate(point.y));
    }
    for curve in &mut drawing.curves {
        if let CurveKind::Circle { radius, .. } = &mut curve.kind {
            *radius = (*radius * scale).clamp(*RADIUS.start(), *RADIUS.end());
        }
    }
    for relation in &mut drawing.relations {
        if let Relation::Length { value, .. } | Relation::Distance { value, .. } = relation {
            *value = (*value * scale).min(MAX_VALUE);
        }
    }
}

/// Adds `by` to every id of a drawing, references and the next id included.
pub fn raise_ids(drawing: &mut Drawing, by: Id) {
    drawing.next_id += by;
    for point in &mut drawing.points {
        point.id += by;
    }
    for curve in &mut drawing.curves {
        curve.id += by;
        let raise = |ids: &mut [&mut Id]| ids.iter_mut().for_each(|id| **id += by);
        match &mut curve.kind {
            CurveKind::Line { a, b } => raise(&mut [a, b]),
            CurveKind::Arc { c, a, b } => raise(&mut [c, a, b]),
            CurveKind::Circle { c, .. } => raise(&mut [c]),
            CurveKind::Bezier { degree, points } => {
                points[..=usize::from(*degree)].iter_mut().for_each(|id| *id += by)
            }
            CurveKind::Conic { a, apex, b, .. } => raise(&mut [a, apex, b]),
        }
    }
    for relation in &mut drawing.relations {
        let raise = |a: &mut Id, b: &mut Id| (*a, *b) = (*a + by, *b + by);
        match relation {
            Relation::Coincident { p, q } | Relation::Distance { p, q, .. } => raise(p, q),
            Relation::PointOnCurve { p, c } => raise(p, c),
            Relation::Collinear { a, b } | Relation::Equal { a, b } => raise(a, b),
            Relation::Midpoint { p, line } => raise(p, line),
            Relation::Length { line: id, .. }
            | Relation::ArcLength { round: id, .. }
            | Relation::ArcSweep { round: id, .. } => *id += by,
        }
    }
}
