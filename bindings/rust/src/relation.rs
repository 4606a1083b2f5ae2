//! Relations between the points and curves of a drawing.

use crate::drawing::Id;

/// What a drawing's points and curves are to each other, or how long they are to be. An edit keeps
/// relations or is refused; whether one is met is measured to within 0.0000001.
#[derive(Clone, Copy, Debug, PartialEq)]
pub enum Relation {
    /// Two points lie at one place.
    Coincident {
        /// The one point.
        p: Id,
        /// The other point.
        q: Id,
    },
    /// A point lies on a curve: on a line or beyond its ends, on an arc's or a circle's whole circle.
    /// On a freeform curve nothing is measured, and the relation counts as met.
    PointOnCurve {
        /// The point.
        p: Id,
        /// The curve, of any kind.
        curve: Id,
    },
    /// Two lines lie along one.
    Collinear {
        /// The one line.
        a: Id,
        /// The other line.
        b: Id,
    },
    /// Two lines have one length, or two arcs or circles one radius.
    Equal {
        /// The one curve.
        a: Id,
        /// The other curve, which is a line just where the first is.
        b: Id,
    },
    /// A line has this length.
    Length {
        /// The line.
        line: Id,
        /// The length, from 0 to 4,000,000.
        value: f64,
    },
    /// Two points have this distance.
    Distance {
        /// The one point.
        p: Id,
        /// The other point.
        q: Id,
        /// The distance, from 0 to 4,000,000.
        value: f64,
    },
    /// A point lies in the middle of a line.
    Midpoint {
        /// The point.
        p: Id,
        /// The line.
        line: Id,
    },
    /// An arc or a circle has this length. It is not measured, and counts as met.
    ArcLength {
        /// The arc or circle.
        round: Id,
        /// The length, from 0 to 4,000,000.
        value: f64,
    },
    /// An arc or a circle has this sweep. It is not measured, and counts as met.
    ArcSweep {
        /// The arc or circle.
        round: Id,
        /// The sweep, from 0 to 4,000,000.
        value: f64,
    },
}

impl Relation {
    /// The name of its kind.
    pub fn name(&self) -> &'static str {
        match self {
            Relation::Coincident { .. } => "Coincident",
            Relation::PointOnCurve { .. } => "PointOnCurve",
            Relation::Collinear { .. } => "Collinear",
            Relation::Equal { .. } => "Equal",
            Relation::Length { .. } => "Length",
            Relation::Distance { .. } => "Distance",
            Relation::Midpoint { .. } => "Midpoint",
            Relation::ArcLength { .. } => "ArcLength",
            Relation::ArcSweep { .. } => "ArcSweep",
        }
    }

    /// The two ids of its record, the second 0 where the kind has one.
    pub fn ids(&self) -> [Id; 2] {
        match *self {
            Relation::Coincident { p, q } | Relation::Distance { p, q, .. } => [p, q],
            Relation::PointOnCurve { p, curve } => [p, curve],
            Relation::Collinear { a, b } | Relation::Equal { a, b } => [a, b],
            Relation::Midpoint { p, line } => [p, line],
            Relation::Length { line, .. } => [line, 0],
            Relation::ArcLength { round, .. } | Relation::ArcSweep { round, .. } => [round, 0],
        }
    }

    /// The points that it names, in its record's order.
    ///
    /// ```
    /// use mulkefi::Relation;
    ///
    /// let relation = Relation::Midpoint { p: 7, line: 3 };
    /// assert_eq!((relation.points(), relation.curves()), (vec![7], vec![3]));
    /// let relation = Relation::Distance { p: 7, q: 2, value: 4.0 };
    /// assert_eq!((relation.points(), relation.curves()), (vec![7, 2], vec![]));
    /// ```
    pub fn points(&self) -> Vec<Id> {
        match *self {
            Relation::Coincident { p, q } | Relation::Distance { p, q, .. } => vec![p, q],
            Relation::PointOnCurve { p, .. } | Relation::Midpoint { p, .. } => vec![p],
            Relation::Collinear { .. }
            | Relation::Equal { .. }
            | Relation::Length { .. }
            | Relation::ArcLength { .. }
            | Relation::ArcSweep { .. } => Vec::new(),
        }
    }

    /// The curves that it names, in its record's order.
    ///
    /// ```
    /// use mulkefi::Relation;
    ///
    /// assert_eq!(Relation::Equal { a: 9, b: 4 }.curves(), [9, 4]);
    /// assert_eq!(Relation::Length { line: 9, value: 2.5 }.curves(), [9]);
    /// ```
    pub fn curves(&self) -> Vec<Id> {
        match *self {
            Relation::Collinear { a, b } | Relation::Equal { a, b } => vec![a, b],
            Relation::PointOnCurve { curve, .. } => vec![curve],
            Relation::Length { line, .. } | Relation::Midpoint { line, .. } => vec![line],
            Relation::ArcLength { round, .. } | Relation::ArcSweep { round, .. } => vec![round],
            Relation::Coincident { .. } | Relation::Distance { .. } => Vec::new(),
        }
    }

    /// The value of one that measures.
    pub fn value(&self) -> Option<f64> {
        match *self {
            Relation::Length { value, .. }
            | Relation::Distance { value, .. }
            | Relation::ArcLength { value, .. }
            | Relation::ArcSweep { value, .. } => Some(value),
            _ => None,
        }
    }
}
