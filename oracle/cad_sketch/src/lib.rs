//! Stand-in for the sketch crate that the upstream edits use: shapes with their crossings,
//! tables of points, curves and constraints, and a solver that moves nothing.
//!
//! Records name each other by place, as upstream has it; each also has the id by which images name
//! it.

mod crossings;
mod shape;
mod solve;
mod storage;
mod tables;

pub use crossings::intersections;
pub use shape::Shape;
pub use solve::{first_unmet, solve, solve_with, unmet, Analysis, Hold, Solution};
pub use storage::{Removed, Sketch};
pub use tables::{Constraint, ConstraintKind, Curve, CurveKind, Point, SketchError};
