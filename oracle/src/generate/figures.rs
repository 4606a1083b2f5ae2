//! Figures, alone and in pairs that touch, share a centre or run side by side, and points on and
//! near them. Every number is finite.

use super::random::Random;
use crate::figure::{Figure, Kind};
use cad_geom::{Vec2, FULL_TURN};
use cad_sketch::Shape;

/// Directions of length 1 whose multiples are often exact.
const DIRECTIONS: [(f64, f64); 12] = [
    (1.0, 0.0),
    (0.0, 1.0),
    (-1.0, 0.0),
    (0.0, -1.0),
    (0.6, 0.8),
    (0.8, 0.6),
    (-0.6, 0.8),
    (0.8, -0.6),
    (-0.6, -0.8),
    (0.28, 0.96),
    (0.96, -0.28),
    (-0.96, 0.28),
];

impl Random {
    pub fn position(&mut self) -> Vec2 {
        Vec2::new(self.coordinate(), self.coordinate())
    }

    /// Mostly no displacement, else a small offset in one or both coordinates.
    fn displacement(&mut self) -> Vec2 {
        Vec2::new(self.jitter(), self.jitter())
    }

    fn direction(&mut self) -> Vec2 {
        let (x, y) = self.pick(&DIRECTIONS);
        Vec2::new(x, y)
    }

    /// A radius that an image may hold, or one too small for it.
    fn radius(&mut self) -> f64 {
        match self.below(16) {
            0 => self.small_offset().abs(),
            1 => self.pick(&[0.0, 1e-6, 1e6, 5e-324, 1e-170]),
            2 => self.unit() * 1e6,
            3..=6 => self.unit() * 12.0,
            _ => self.between(1, 24) as f64 * 0.5,
        }
    }
}

fn radius_of(round: &Figure) -> f64 {
    match round.shape() {
        Shape::Round { r, .. } => r,
        Shape::Line { .. } => unreachable!("a line is no round"),
    }
}

/// A round of a centre and a radius: a circle, or an arc from any direction to any other.
fn round(random: &mut Random, kind: Kind, c: Vec2, r: f64) -> Figure {
    match kind {
        Kind::Line => unreachable!("a line is no round"),
        Kind::Circle => Figure::circle(c, r),
        Kind::Arc => {
            let a = c + random.direction() * r + random.displacement();
            let away = random.position();
            let end = c + random.direction() * r + random.displacement();
            // Ends in one direction make a full sweep.
            let b = random.weighted(&[(6, end), (2, away), (1, a), (1, c + (a - c) * 2.0)]);
            Figure::arc(c, a, b)
        }
    }
}

fn line(random: &mut Random) -> Figure {
    let (a, away) = (random.position(), random.position());
    let near = a + Vec2::new(random.maybe_small_offset(), random.maybe_small_offset());
    let level = Vec2::new(away.x, a.y);
    Figure::line(a, random.weighted(&[(12, away), (4, level), (2, near), (1, a)]))
}

/// An arc that starts next to the first axis, where a turn is next to 0 or to the whole.
fn arc_by_the_axis(random: &mut Random) -> Figure {
    let c = random.pick(&[Vec2::new(0.0, 0.0), Vec2::new(0.0, -0.0), Vec2::new(2.0, 1.0)]);
    let off = f64::EPSILON * random.between(-8, 8) as f64;
    let a = Vec2::new(c.x + 1.0, c.y + off);
    let b = random.position();
    Figure::arc(c, a, random.pick(&[a, b, Vec2::new(c.x + 1.0, c.y - off)]))
}

pub fn figure(random: &mut Random, kind: Kind) -> Figure {
    let scale = scale(random);
    plain_figure(random, kind).times(scale)
}

fn plain_figure(random: &mut Random, kind: Kind) -> Figure {
    match kind {
        Kind::Line => line(random),
        Kind::Arc if random.one_in(8) => arc_by_the_axis(random),
        Kind::Arc | Kind::Circle => {
            let (c, r) = (random.position(), random.radius());
            round(random, kind, c, r)
        }
    }
}

/// Mostly 1, seldom a power of two by which squares overflow or vanish.
fn scale(random: &mut Random) -> f64 {
    let power = random.pick(&[-1000, -540, -300, -40, 40, 300, 480, 520, 1000]);
    if random.one_in(24) {
        2f64.powi(power)
    } else {
        1.0
    }
}

impl Figure {
    fn times(self, scale: f64) -> Figure {
        Figure { numbers: self.numbers.map(|number| number * scale), ..self }
    }
}

/// Two figures of these kinds, most of them such that they nearly cross or nearly miss each other.
pub fn pair(random: &mut Random, first: Kind, second: Kind) -> (Figure, Figure) {
    let scale = scale(random);
    let one = plain_figure(random, first);
    let two = match (first, second) {
        _ if random.one_in(4) => plain_figure(random, second),
        (Kind::Line, Kind::Line) => line_beside(random, &one),
        (Kind::Line, _) => round_beside_line(random, second, &one),
        (_, Kind::Line) => line_beside_round(random, &one),
        (_, _) => round_beside_round(random, second, &one),
    };
    (one.times(scale), two.times(scale))
}

/// Parallel, nearly so, or from one of the other's ends.
fn line_beside(random: &mut Random, other: &Figure) -> Figure {
    let (a, d) = (other.point(0), other.point(1) - other.point(0));
    let away = a + random.position();
    let start = random.pick(&[a, other.point(1), away, a + d * 0.5]);
    let end = start + d * random.pick(&[1.0, -1.0, 2.0, 0.25]) + random.displacement();
    Figure::line(start, random.weighted(&[(3, end), (1, start + d.left())]))
}

/// Touching the line, a small offset from it, or around one of its ends.
fn round_beside_line(random: &mut Random, kind: Kind, line: &Figure) -> Figure {
    let (a, b) = (line.point(0), line.point(1));
    let r = random.radius();
    let touching = match (b - a).normalized() {
        Some(d) => a + (b - a) * random.unit() + d.left() * r + random.displacement(),
        None => a + random.direction() * r,
    };
    let c = random.weighted(&[(6, touching), (1, a), (1, b), (1, (a + b) * 0.5)]);
    round(random, kind, c, r)
}

/// Touching the round, a small offset from it, or through its centre.
fn line_beside_round(random: &mut Random, other: &Figure) -> Figure {
    let n = random.direction();
    let from_centre = radius_of(other) * random.pick(&[1.0, 1.0, 0.5, 0.0]);
    let foot = other.point(0) + n * from_centre + random.displacement();
    Figure::line(foot - n.left() * random.grid(), foot + n.left() * random.grid())
}

/// Touching from outside or inside, with the same centre or nearly, or crossing.
fn round_beside_round(random: &mut Random, kind: Kind, other: &Figure) -> Figure {
    let (c, r) = (other.point(0), radius_of(other));
    let radius = if random.one_in(4) { r } else { random.radius() };
    let apart = random.pick(&[r + radius, r - radius, r, 0.0, radius]);
    let centre = c + random.direction() * apart + random.displacement();
    round(random, kind, centre, radius)
}

/// A point to measure: anywhere, on the figure or off it by a small offset, or one that it is made of.
pub fn point_by(random: &mut Random, figure: &Figure) -> Vec2 {
    let on = figure.shape().point(parameter(random, figure));
    let off = on + Vec2::new(random.maybe_small_offset(), random.maybe_small_offset());
    let own = figure.point(random.below(3));
    let centre = figure.point(0) + random.displacement();
    let any = random.position();
    let point = random.weighted(&[(4, any), (3, on), (3, off), (2, own), (2, centre)]);
    if point.is_finite() {
        point
    } else {
        any
    }
}

/// A line's parameter is any number. A round's lies within one turn, or a small offset before it.
pub fn parameter(random: &mut Random, figure: &Figure) -> f64 {
    if figure.kind == Kind::Line {
        let (any, within, small) = (random.coordinate(), random.unit(), random.small_offset());
        return random.pick(&[any, within, 0.0, 1.0, small, 1.0 + small]);
    }
    let (any, quarter) = (random.unit() * FULL_TURN, random.below(5) as f64);
    let near = (quarter + random.small_offset()).min(FULL_TURN);
    let parameter = random.pick(&[any, quarter, near]);
    if has_point(figure, parameter) {
        parameter
    } else {
        0.0
    }
}

/// Whether a shape has a point there. One turn is taken off the sum of a round's start and a
/// parameter, so that from two turns on it is in no quarter; no edit comes to that.
pub fn has_point(figure: &Figure, parameter: f64) -> bool {
    match figure.shape() {
        Shape::Line { .. } => true,
        Shape::Round { start, .. } => start + parameter < 2.0 * FULL_TURN,
    }
}
