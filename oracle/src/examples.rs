//! The two drawings that the examples start from.

use crate::drawing::*;

pub fn point(id: Id, x: f64, y: f64) -> Point {
    Point { id, x, y, fixed: false }
}

pub fn curve(id: Id, kind: CurveKind) -> Curve {
    Curve { id, kind, construction: false, centerline: false, infinite: false }
}

pub fn line(id: Id, a: Id, b: Id) -> Curve {
    curve(id, CurveKind::Line { a, b })
}

/// One level line of length 4.
pub fn l() -> Drawing {
    Drawing {
        next_id: 4,
        points: vec![point(1, 0.0, 0.0), point(2, 4.0, 0.0)],
        curves: vec![line(3, 1, 2)],
        relations: vec![],
    }
}

/// The line of `l`, crossed at a quarter of its length by an upright one.
pub fn t() -> Drawing {
    let mut drawing = l();
    drawing.next_id = 7;
    drawing.points.extend([point(4, 1.0, -1.0), point(5, 1.0, 1.0)]);
    drawing.curves.push(line(6, 4, 5));
    drawing
}
