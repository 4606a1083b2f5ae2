//! A drawing as images hold it: three tables whose records name each other by id.

pub type Id = u32;

pub const MAX_POINTS: usize = 512;
pub const MAX_CURVES: usize = 128;
pub const MAX_RELATIONS: usize = 256;
/// The greatest magnitude of a coordinate, of a pick too.
pub const MAX_COORDINATE: f64 = 1_000_000.0;
pub const RADIUS: std::ops::RangeInclusive<f64> = 1e-6..=1e6;
pub const MAX_DEGREE: u8 = 7;
/// The greatest value that a measuring relation may have.
pub const MAX_VALUE: f64 = 4_000_000.0;
/// Point slots of a curve record.
pub const SLOTS: usize = 8;

#[derive(Clone, Debug, PartialEq)]
pub struct Drawing {
    pub next_id: Id,
    pub points: Vec<Point>,
    pub curves: Vec<Curve>,
    pub relations: Vec<Relation>,
}

impl Drawing {
    pub fn empty() -> Self {
        Drawing { next_id: 1, points: Vec::new(), curves: Vec::new(), relations: Vec::new() }
    }

    pub fn point(&self, id: Id) -> Option<&Point> {
        find_point(&self.points, id)
    }

    pub fn curve(&self, id: Id) -> Option<&Curve> {
        find_curve(&self.curves, id)
    }
}

#[derive(Clone, Copy, Debug, PartialEq)]
pub struct Point {
    pub id: Id,
    pub x: f64,
    pub y: f64,
    pub fixed: bool,
}

#[derive(Clone, Copy, Debug, PartialEq)]
pub struct Curve {
    pub id: Id,
    pub kind: CurveKind,
    pub construction: bool,
    pub centerline: bool,
    pub infinite: bool,
}

#[derive(Clone, Copy, Debug, PartialEq)]
pub enum CurveKind {
    Line {
        a: Id,
        b: Id,
    },
    Arc {
        c: Id,
        a: Id,
        b: Id,
    },
    Circle {
        c: Id,
        radius: f64,
    },
    /// The first `degree + 1` slots are its points in order, the others 0.
    Bezier {
        degree: u8,
        points: [Id; SLOTS],
    },
    Conic {
        a: Id,
        apex: Id,
        b: Id,
        rho: f64,
    },
}

impl CurveKind {
    pub fn is_line(&self) -> bool {
        matches!(self, CurveKind::Line { .. })
    }

    /// Arcs and circles.
    pub fn is_round(&self) -> bool {
        matches!(self, CurveKind::Arc { .. } | CurveKind::Circle { .. })
    }

    pub fn is_freeform(&self) -> bool {
        matches!(self, CurveKind::Bezier { .. } | CurveKind::Conic { .. })
    }

    /// The kind byte of an image.
    pub fn code(&self) -> u8 {
        match self {
            CurveKind::Line { .. } => 1,
            CurveKind::Arc { .. } => 2,
            CurveKind::Circle { .. } => 3,
            CurveKind::Bezier { .. } => 4,
            CurveKind::Conic { .. } => 5,
        }
    }
}

#[derive(Clone, Copy, Debug, PartialEq)]
pub enum Relation {
    Coincident { p: Id, q: Id },
    PointOnCurve { p: Id, c: Id },
    Collinear { a: Id, b: Id },
    Equal { a: Id, b: Id },
    Length { line: Id, value: f64 },
    Distance { p: Id, q: Id, value: f64 },
    Midpoint { p: Id, line: Id },
    ArcLength { round: Id, value: f64 },
    ArcSweep { round: Id, value: f64 },
}

impl Relation {
    /// The kind byte of an image.
    pub fn code(&self) -> u8 {
        match self {
            Relation::Coincident { .. } => 1,
            Relation::PointOnCurve { .. } => 2,
            Relation::Collinear { .. } => 3,
            Relation::Equal { .. } => 4,
            Relation::Length { .. } => 5,
            Relation::Distance { .. } => 6,
            Relation::Midpoint { .. } => 7,
            Relation::ArcLength { .. } => 8,
            Relation::ArcSweep { .. } => 9,
        }
    }

    /// The two id fields of an image, the second 0 where the kind has one id only.
    pub fn ids(&self) -> [Id; 2] {
        match *self {
            Relation::Coincident { p, q } | Relation::Distance { p, q, .. } => [p, q],
            Relation::PointOnCurve { p, c } => [p, c],
            Relation::Collinear { a, b } | Relation::Equal { a, b } => [a, b],
            Relation::Midpoint { p, line } => [p, line],
            Relation::Length { line, .. } => [line, 0],
            Relation::ArcLength { round, .. } | Relation::ArcSweep { round, .. } => [round, 0],
        }
    }

    /// The value of a measuring relation, none for another.
    pub fn value(&self) -> Option<f64> {
        match *self {
            Relation::Length { value, .. }
            | Relation::Distance { value, .. }
            | Relation::ArcLength { value, .. }
            | Relation::ArcSweep { value, .. } => Some(value),
            _ => None,
        }
    }
}

/// Look-up in a table whose ids rise.
pub fn find_point(points: &[Point], id: Id) -> Option<&Point> {
    points.binary_search_by_key(&id, |point| point.id).ok().map(|at| &points[at])
}

/// Look-up in a table whose ids rise.
pub fn find_curve(curves: &[Curve], id: Id) -> Option<&Curve> {
    curves.binary_search_by_key(&id, |curve| curve.id).ok().map(|at| &curves[at])
}
