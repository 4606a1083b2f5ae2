//! A drawing as a host makes and shows it: three tables whose records name each other by id.

use crate::relation::Relation;

/// The id of a point or a curve, from 1 to 4,294,967,294. Points and curves share one sequence.
pub type Id = u32;

/// Points, curves and relations. Ids rise in each table, below the next id.
///
/// A drawing may hold anything; whether its image is good is for [`crate::test`] to say.
#[derive(Clone, Debug, PartialEq)]
pub struct Drawing {
    /// The id that the next point or curve gets.
    pub next: Id,
    /// The points, at most 512 in an image, by rising ids.
    pub points: Vec<Point>,
    /// The curves, at most 128 in an image, by rising ids.
    pub curves: Vec<Curve>,
    /// The relations, at most 256 in an image. A relation has no id; its place in this table names it.
    pub relations: Vec<Relation>,
}

/// A point of a drawing.
#[derive(Clone, Copy, Debug, PartialEq)]
pub struct Point {
    /// The point's own id.
    pub id: Id,
    /// The coordinate to the right, finite and of magnitude at most 1,000,000.
    pub x: f64,
    /// The coordinate upwards, finite and of magnitude at most 1,000,000.
    pub y: f64,
    /// Whether no edit may move the point.
    pub fixed: bool,
}

/// A curve of a drawing.
#[derive(Clone, Debug, PartialEq)]
pub struct Curve {
    /// The curve's own id.
    pub id: Id,
    /// What it is, and the points that it uses.
    pub kind: Kind,
    /// Whether it is there for construction. Pieces that an edit adds keep this flag.
    pub construction: bool,
    /// Whether it is an axis. Pieces that an edit adds do not keep this flag.
    pub centerline: bool,
    /// Whether it is a line without ends; no other kind may be.
    pub infinite: bool,
}

/// What a curve is, and the ids of the points that it uses.
#[derive(Clone, Debug, PartialEq)]
pub enum Kind {
    /// Straight from `a` to `b`.
    Line {
        /// The start.
        a: Id,
        /// The end, another point than the start.
        b: Id,
    },
    /// About `c`, counter-clockwise from `a` to `b`.
    Arc {
        /// The centre.
        c: Id,
        /// The start, whose distance from the centre is the radius.
        a: Id,
        /// The end, towards which it goes.
        b: Id,
    },
    /// A whole circle about `c`.
    Circle {
        /// The centre.
        c: Id,
        /// The radius, from 0.000001 to 1,000,000.
        radius: f64,
    },
    /// A Bézier curve of degree 1 to 7.
    Bezier {
        /// Its two to eight control points, of which the first and the last are its ends.
        points: Vec<Id>,
    },
    /// A piece of a conic section, tangent at its ends to the lines from there to the apex.
    Conic {
        /// The start.
        a: Id,
        /// Where the tangents at its ends meet.
        apex: Id,
        /// The end.
        b: Id,
        /// How near it comes to the apex, between 0 and 1: below 0.5 an ellipse, above a hyperbola.
        rho: f64,
    },
}

impl Kind {
    /// The kind's name, for texts.
    pub fn name(&self) -> &'static str {
        match self {
            Kind::Line { .. } => "line",
            Kind::Arc { .. } => "arc",
            Kind::Circle { .. } => "circle",
            Kind::Bezier { .. } => "Bézier",
            Kind::Conic { .. } => "conic",
        }
    }

    /// The points that it names, in a record's order.
    pub fn points(&self) -> Vec<Id> {
        match self {
            Kind::Line { a, b } => vec![*a, *b],
            Kind::Arc { c, a, b } => vec![*c, *a, *b],
            Kind::Circle { c, .. } => vec![*c],
            Kind::Bezier { points } => points.clone(),
            Kind::Conic { a, apex, b, .. } => vec![*a, *apex, *b],
        }
    }
}

impl Drawing {
    /// The point with this id.
    pub fn point(&self, id: Id) -> Option<&Point> {
        self.points.binary_search_by_key(&id, |point| point.id).ok().map(|at| &self.points[at])
    }

    /// The curve with this id.
    pub fn curve(&self, id: Id) -> Option<&Curve> {
        self.curves.binary_search_by_key(&id, |curve| curve.id).ok().map(|at| &self.curves[at])
    }

    /// The relation at a place, counted from 0; a relation has no id.
    ///
    /// ```
    /// use mulkefi::{Drawing, Kind, Relation};
    ///
    /// let mut drawing = Drawing::new();
    /// let (a, b) = (drawing.add_point(0.0, 0.0), drawing.add_point(4.0, 0.0));
    /// let line = drawing.add_curve(Kind::Line { a, b });
    /// drawing.relations.push(Relation::Length { line, value: 4.0 });
    /// assert_eq!(drawing.relation(0), Some(&Relation::Length { line, value: 4.0 }));
    /// assert_eq!(drawing.relation(1), None);
    /// ```
    pub fn relation(&self, place: usize) -> Option<&Relation> {
        self.relations.get(place)
    }
}
