//! A position and a direction: coordinates along it and across it.

use super::random::Random;
use cad_geom::Vec2;
use cad_sketch::Shape;

#[derive(Clone, Copy, Debug)]
pub struct Frame {
    origin: Vec2,
    /// Of length 1 but for rounding.
    along: Vec2,
}

impl Frame {
    /// Mostly level or upright and on the grid, where crossings fall on exact numbers; else
    /// turned anyhow, and at times far out.
    pub fn any(random: &mut Random) -> Frame {
        let turned = unit(random.unit() * 4.0);
        let exact = [(1.0, 0.0), (0.0, 1.0), (-1.0, 0.0), (0.6, 0.8), (-0.8, 0.6)];
        let [right, up, left, steep, back] = exact.map(|(x, y)| Vec2::new(x, y));
        let shares = [(8, right), (1, up), (1, left), (2, steep), (1, back), (3, turned)];
        let along = random.weighted(&shares);
        let origin = if random.one_in(3) {
            Vec2::default()
        } else {
            Vec2::new(random.axis(), random.axis())
        };
        Frame { origin, along }
    }

    /// The frame where a line stands at a share of its way, or a round at a turn from its start.
    pub fn on(shape: &Shape, t: f64) -> Frame {
        let origin = shape.point(t);
        let along = match *shape {
            Shape::Line { a, b } => (b - a).normalized(),
            Shape::Round { c, .. } => (origin - c).normalized().map(Vec2::left),
        };
        Frame { origin, along: along.unwrap_or(Vec2::new(1.0, 0.0)) }
    }

    pub fn at(&self, along: f64, across: f64) -> (f64, f64) {
        let Vec2 { x, y } = self.origin + self.along * along + self.along.left() * across;
        (x, y)
    }

    /// The frame further along.
    pub fn moved(&self, along: f64) -> Frame {
        Frame { origin: self.origin + self.along * along, ..*self }
    }
}

/// The unit vector at a turn from 0 to below 4.
fn unit(t: f64) -> Vec2 {
    Shape::circle(Vec2::default(), 1.0).point(t)
}

impl Random {
    /// A coordinate of a frame's origin.
    fn axis(&mut self) -> f64 {
        let (grid, even) = (self.grid(), (self.unit() - 0.5) * 24.0);
        let far = (self.unit() - 0.5) * 1.9e6;
        self.weighted(&[(5, 0.0), (1, -0.0), (6, grid), (3, even), (1, far)])
    }
}
