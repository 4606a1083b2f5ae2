//! Shapes as plain numbers, which is how both sides of a comparison get them.

use cad_geom::Vec2;
use cad_sketch::Shape;

#[derive(Clone, Copy, Debug, PartialEq, Eq)]
pub enum Kind {
    Line,
    Arc,
    Circle,
}

impl Kind {
    pub const ALL: [Kind; 3] = [Kind::Line, Kind::Arc, Kind::Circle];

    pub fn number(self) -> u32 {
        self as u32
    }
}

/// A line's ends, an arc's centre and ends, or a circle's centre and radius. Numbers left over
/// are 0.
#[derive(Clone, Copy, Debug)]
pub struct Figure {
    pub kind: Kind,
    pub numbers: [f64; 6],
}

impl Figure {
    pub fn line(a: Vec2, b: Vec2) -> Figure {
        Figure { kind: Kind::Line, numbers: [a.x, a.y, b.x, b.y, 0.0, 0.0] }
    }

    pub fn arc(c: Vec2, a: Vec2, b: Vec2) -> Figure {
        Figure { kind: Kind::Arc, numbers: [c.x, c.y, a.x, a.y, b.x, b.y] }
    }

    pub fn circle(c: Vec2, r: f64) -> Figure {
        Figure { kind: Kind::Circle, numbers: [c.x, c.y, r, 0.0, 0.0, 0.0] }
    }

    /// The pair of numbers at an index: a line's or an arc's point.
    pub fn point(&self, at: usize) -> Vec2 {
        Vec2::new(self.numbers[2 * at], self.numbers[2 * at + 1])
    }

    pub fn shape(&self) -> Shape {
        match self.kind {
            Kind::Line => Shape::Line { a: self.point(0), b: self.point(1) },
            Kind::Arc => Shape::arc(self.point(0), self.point(1), self.point(2)),
            Kind::Circle => Shape::circle(self.point(0), self.numbers[2]),
        }
    }
}
