//! Curves as strokes of a pen, for pictures and picks.

use crate::drawing::{Curve, Drawing, Id, Kind};
use crate::position::{Bounds, Position};
use std::f64::consts::{PI, TAU};

/// How a pen draws a curve.
#[derive(Clone, Debug, PartialEq)]
pub enum Stroke {
    /// A whole circle.
    Circle {
        /// The centre.
        centre: Position,
        /// The radius.
        radius: f64,
    },
    /// Counter-clockwise by `sweep` radians.
    Arc {
        /// The centre.
        centre: Position,
        /// The radius.
        radius: f64,
        /// The direction from the centre to where it begins, in radians.
        start: f64,
        /// How far it goes, in radians, above 0 and at most a whole turn.
        sweep: f64,
    },
    /// Straight from each position to the next.
    Path(Vec<Position>),
}

/// Straight steps that stand for a curve.
const STEPS: usize = 64;

impl Stroke {
    /// A curve's stroke, or none where a point of it is missing or a Bézier has none.
    pub fn of(drawing: &Drawing, curve: &Curve) -> Option<Stroke> {
        let at = |id: Id| drawing.point(id).map(|point| Position::new(point.x, point.y));
        Some(match &curve.kind {
            Kind::Line { a, b } => Stroke::Path(vec![at(*a)?, at(*b)?]),
            Kind::Arc { c, a, b } => Stroke::arc(at(*c)?, at(*a)?, at(*b)?),
            Kind::Circle { c, radius } => Stroke::Circle { centre: at(*c)?, radius: *radius },
            Kind::Bezier { points } if points.is_empty() => return None,
            Kind::Bezier { points } => {
                let points = points.iter().map(|id| at(*id)).collect::<Option<Vec<Position>>>()?;
                let point = |t: f64| bezier(&points, t);
                Stroke::Path((0..=STEPS).map(|i| point(i as f64 / STEPS as f64)).collect())
            }
            Kind::Conic { a, apex, b, rho } => {
                let (a, apex, b, weight) = (at(*a)?, at(*apex)?, at(*b)?, rho / (1.0 - rho));
                let point = |t: f64| conic([a, apex, b], weight, t);
                Stroke::Path((0..=STEPS).map(|i| point(i as f64 / STEPS as f64)).collect())
            }
        })
    }

    /// An arc about a centre from one position to another's direction.
    pub fn arc(centre: Position, from: Position, to: Position) -> Stroke {
        let start = centre.angle_to(from);
        let turn = (centre.angle_to(to) - start).rem_euclid(TAU);
        let sweep = if turn > 0.0 { turn } else { TAU };
        Stroke::Arc { centre, radius: centre.distance(from), start, sweep }
    }

    /// Positions along the stroke, its ends among them.
    pub fn positions(&self) -> Vec<Position> {
        match self {
            Stroke::Path(positions) => positions.clone(),
            Stroke::Circle { centre, radius } => around(*centre, *radius, 0.0, TAU),
            Stroke::Arc { centre, radius, start, sweep } => {
                around(*centre, *radius, *start, *sweep)
            }
        }
    }

    /// The position in the middle of the stroke; of a circle it is half way from the right to the top,
    /// where other curves are the least likely to touch it.
    pub(crate) fn middle(&self) -> Option<Position> {
        match self {
            Stroke::Circle { centre, radius } => Some(centre.step(PI / 4.0, *radius)),
            Stroke::Arc { centre, radius, start, sweep } => {
                Some(centre.step(start + sweep / 2.0, *radius))
            }
            Stroke::Path(positions) => {
                let last = positions.len().checked_sub(1)?;
                Some(positions[last / 2].towards(positions[last.div_ceil(2)], 0.5))
            }
        }
    }

    /// A line's stroke drawn on in both directions, over the bounds' edges.
    pub fn endless(self, bounds: &Bounds) -> Stroke {
        let Stroke::Path(positions) = &self else { return self };
        let &[a, b] = &positions[..] else { return self };
        let reach = (bounds.width() + bounds.height()) / a.distance(b).max(1e-9);
        Stroke::Path(vec![a.towards(b, -reach), a.towards(b, 1.0 + reach)])
    }

    /// What the `d` of a path in SVG says; y goes down there.
    pub(crate) fn path_data(&self, map: impl Fn(Position) -> Position, scale: f64) -> String {
        match self {
            Stroke::Arc { centre, radius, start, sweep } if *sweep < TAU - 1e-6 => {
                let from = map(centre.step(*start, *radius));
                let to = map(centre.step(*start + *sweep, *radius));
                let (r, large) = (radius * scale, u8::from(*sweep > PI));
                let ends = [from.x, from.y, r, r, to.x, to.y].map(|v| format!("{v:.2}"));
                let [x, y, rx, ry, tx, ty] = ends;
                format!("M{x} {y}A{rx} {ry} 0 {large} 0 {tx} {ty}")
            }
            _ => {
                let steps = self.positions().into_iter().map(map);
                let steps: Vec<String> = steps.map(|p| format!("{:.2} {:.2}", p.x, p.y)).collect();
                format!("M{}", steps.join("L"))
            }
        }
    }
}

fn around(centre: Position, radius: f64, start: f64, sweep: f64) -> Vec<Position> {
    let angle = |i: usize| start + sweep * i as f64 / STEPS as f64;
    (0..=STEPS).map(|i| centre.step(angle(i), radius)).collect()
}

/// By halving and halving again, as de Casteljau does it.
fn bezier(points: &[Position], t: f64) -> Position {
    let mut level = points.to_vec();
    while level.len() > 1 {
        level = level.windows(2).map(|pair| pair[0].towards(pair[1], t)).collect();
    }
    level[0]
}

fn conic([a, apex, b]: [Position; 3], weight: f64, t: f64) -> Position {
    let shares = [(1.0 - t) * (1.0 - t), 2.0 * t * (1.0 - t) * weight, t * t];
    let sum: f64 = shares.iter().sum();
    let mix = |[u, v, w]: [f64; 3]| (u * shares[0] + v * shares[1] + w * shares[2]) / sum;
    Position::new(mix([a.x, apex.x, b.x]), mix([a.y, apex.y, b.y]))
}
