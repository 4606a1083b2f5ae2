//! Drawings next to the first example, and edits of them.

use oracle::drawing::*;
use oracle::edit::apply;
use oracle::examples::l;
use oracle::message::{Edit, Operation};

pub const TRIM: Operation = Operation::Trim;
pub const SPLIT: Operation = Operation::Split;
pub const EXTEND: Operation = Operation::Extend;

pub fn refused(drawing: &Drawing, operation: Operation, curve: Id, x: f64, y: f64) -> u8 {
    apply(drawing, &Edit { operation, curve, x, y }).expect_err("refused").refusal.number()
}

/// `l` with points 4 and on, and curves after them; ids up to 19 are given out.
pub fn l_with(points: &[Point], curves: &[Curve]) -> Drawing {
    let mut drawing = l();
    drawing.points.extend(points);
    drawing.curves.extend(curves);
    drawing.next_id = 20;
    drawing
}
