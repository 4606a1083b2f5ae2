//! The records of a sketch, and why an addition is refused.

use cad_geom::Vec2;

#[derive(Clone, Copy, Debug, PartialEq)]
pub struct Point {
    pub id: u32,
    pub pos: Vec2,
    pub fixed: bool,
}

/// Upstream's record. `reversed`, `link` and `fixed` are never set in a drawing of ours.
#[derive(Clone, Copy, Debug, PartialEq)]
pub struct Curve {
    pub id: u32,
    pub kind: CurveKind,
    pub construction: bool,
    pub reversed: bool,
    pub link: Option<u32>,
    pub centerline: bool,
    pub fixed: bool,
    pub infinite: bool,
}

/// Points by their place in the table.
#[derive(Clone, Copy, Debug, PartialEq)]
pub enum CurveKind {
    Line {
        a: usize,
        b: usize,
    },
    Arc {
        c: usize,
        a: usize,
        b: usize,
    },
    Circle {
        c: usize,
        r: f64,
    },
    /// The first `degree + 1` slots are used.
    Bezier {
        degree: u8,
        points: [usize; 8],
    },
    Conic {
        a: usize,
        apex: usize,
        b: usize,
        rho: f64,
    },
}

impl CurveKind {
    pub fn is_freeform(&self) -> bool {
        matches!(self, CurveKind::Bezier { .. } | CurveKind::Conic { .. })
    }

    pub fn uses(&self, point: usize) -> bool {
        match self {
            CurveKind::Line { a, b } => [*a, *b].contains(&point),
            CurveKind::Arc { c, a, b } => [*c, *a, *b].contains(&point),
            CurveKind::Circle { c, .. } => *c == point,
            CurveKind::Bezier { degree, points } => {
                points[..=usize::from(*degree)].contains(&point)
            }
            CurveKind::Conic { a, apex, b, .. } => [*a, *apex, *b].contains(&point),
        }
    }

    /// Sets the flag of each point that the curve uses.
    pub fn flag_points(&self, used: &mut [bool]) {
        match *self {
            CurveKind::Line { a, b } => [a, b].iter().for_each(|p| used[*p] = true),
            CurveKind::Arc { c, a, b } => [c, a, b].iter().for_each(|p| used[*p] = true),
            CurveKind::Circle { c, .. } => used[c] = true,
            CurveKind::Bezier { degree, points } => {
                points[..=usize::from(degree)].iter().for_each(|p| used[*p] = true)
            }
            CurveKind::Conic { a, apex, b, .. } => {
                [a, apex, b].iter().for_each(|p| used[*p] = true)
            }
        }
    }

    /// Start and end of a line or arc.
    pub fn ends(&self) -> Option<(usize, usize)> {
        match *self {
            CurveKind::Line { a, b } | CurveKind::Arc { a, b, .. } => Some((a, b)),
            _ => None,
        }
    }

    /// The same curve with its points at other places.
    pub fn with_points(self, place: impl Fn(usize) -> usize) -> CurveKind {
        match self {
            CurveKind::Line { a, b } => CurveKind::Line { a: place(a), b: place(b) },
            CurveKind::Arc { c, a, b } => CurveKind::Arc { c: place(c), a: place(a), b: place(b) },
            CurveKind::Circle { c, r } => CurveKind::Circle { c: place(c), r },
            CurveKind::Bezier { degree, mut points } => {
                for slot in &mut points[..=usize::from(degree)] {
                    *slot = place(*slot);
                }
                CurveKind::Bezier { degree, points }
            }
            CurveKind::Conic { a, apex, b, rho } => {
                CurveKind::Conic { a: place(a), apex: place(apex), b: place(b), rho }
            }
        }
    }
}

#[derive(Clone, Copy, Debug, PartialEq)]
pub struct Constraint {
    pub kind: ConstraintKind,
}

/// Points and curves by their place in the table; `l` is a line, `c` any curve or a round.
#[derive(Clone, Copy, Debug, PartialEq)]
pub enum ConstraintKind {
    Coincident { p: usize, q: usize },
    PointOnCurve { p: usize, c: usize },
    Collinear { a: usize, b: usize },
    Equal { a: usize, b: usize },
    Length { l: usize, value: f64 },
    Distance { p: usize, q: usize, value: f64 },
    Midpoint { p: usize, l: usize },
    ArcLength { c: usize, value: f64 },
    ArcSweep { c: usize, value: f64 },
}

impl ConstraintKind {
    /// The points and the curves that it names.
    pub fn names(&self) -> ([Option<usize>; 2], [Option<usize>; 2]) {
        match *self {
            ConstraintKind::Coincident { p, q } | ConstraintKind::Distance { p, q, .. } => {
                ([Some(p), Some(q)], [None, None])
            }
            ConstraintKind::PointOnCurve { p, c: curve }
            | ConstraintKind::Midpoint { p, l: curve } => ([Some(p), None], [Some(curve), None]),
            ConstraintKind::Collinear { a, b } | ConstraintKind::Equal { a, b } => {
                ([None, None], [Some(a), Some(b)])
            }
            ConstraintKind::Length { l: curve, .. }
            | ConstraintKind::ArcLength { c: curve, .. }
            | ConstraintKind::ArcSweep { c: curve, .. } => ([None, None], [Some(curve), None]),
        }
    }

    /// The same constraint with its points and curves at other places.
    pub fn with_places(
        self,
        point: impl Fn(usize) -> usize,
        curve: impl Fn(usize) -> usize,
    ) -> ConstraintKind {
        use ConstraintKind::*;
        match self {
            Coincident { p, q } => Coincident { p: point(p), q: point(q) },
            PointOnCurve { p, c } => PointOnCurve { p: point(p), c: curve(c) },
            Collinear { a, b } => Collinear { a: curve(a), b: curve(b) },
            Equal { a, b } => Equal { a: curve(a), b: curve(b) },
            Length { l, value } => Length { l: curve(l), value },
            Distance { p, q, value } => Distance { p: point(p), q: point(q), value },
            Midpoint { p, l } => Midpoint { p: point(p), l: curve(l) },
            ArcLength { c, value } => ArcLength { c: curve(c), value },
            ArcSweep { c, value } => ArcSweep { c: curve(c), value },
        }
    }
}

/// Why an edit or an addition is refused.
#[derive(Clone, Debug, PartialEq, Eq)]
pub enum SketchError {
    /// Upstream's own reason, in its words.
    Invalid(String),
    /// The next id after the addition would not be a number of 32 bits.
    IdsUsedUp,
    /// The table has no room.
    TableFull,
    /// A coordinate is not finite or too large.
    OutOfRange,
}
