//! A drawing in words, one record a line.

use crate::drawing::{Curve, Drawing, Kind, Point};
use crate::relation::Relation;
use std::fmt;

impl Drawing {
    /// The drawing in words, where a `>` in front highlights the relation at a place and the points and
    /// curves that it names. Where there is no such relation, nothing is highlighted.
    ///
    /// ```
    /// use mulkefi::{Drawing, Kind, Relation};
    ///
    /// let mut drawing = Drawing::new();
    /// let (a, b) = (drawing.add_point(0.0, 0.0), drawing.add_point(4.0, 0.0));
    /// let line = drawing.add_curve(Kind::Line { a, b });
    /// drawing.relations.push(Relation::Length { line, value: 4.0 });
    /// drawing.relations.push(Relation::PointOnCurve { p: a, curve: line });
    /// let text = "\
    /// next id 4
    /// 2 points
    /// >      1  0.0, 0.0
    ///        2  4.0, 0.0
    /// 1 curves
    /// >      3  line of 1, 2
    /// 2 relations
    ///        0  Length of 3, 4.0
    /// >      1  PointOnCurve of 1, 3
    /// ";
    /// assert_eq!(drawing.highlighted(1).to_string(), text);
    /// assert_eq!(drawing.highlighted(2).to_string(), drawing.to_string());
    /// ```
    pub fn highlighted(&self, place: usize) -> impl fmt::Display + '_ {
        Listing { drawing: self, highlighted: Some(place) }
    }
}

/// A drawing's records, some of them highlighted.
struct Listing<'d> {
    drawing: &'d Drawing,
    highlighted: Option<usize>,
}

impl fmt::Display for Listing<'_> {
    fn fmt(&self, f: &mut fmt::Formatter<'_>) -> fmt::Result {
        let Listing { drawing: Drawing { next, points, curves, relations }, highlighted } = self;
        let relation = highlighted.and_then(|place| self.drawing.relation(place));
        let named_points = relation.map_or(Vec::new(), Relation::points);
        let named_curves = relation.map_or(Vec::new(), Relation::curves);
        writeln!(f, "next id {next}\n{} points", points.len())?;
        for point in points {
            write_record(f, named_points.contains(&point.id), point.to_string())?;
        }
        writeln!(f, "{} curves", curves.len())?;
        for curve in curves {
            write_record(f, named_curves.contains(&curve.id), curve.to_string())?;
        }
        writeln!(f, "{} relations", relations.len())?;
        // A relation has no id; refusals name it by its place.
        for (place, relation) in relations.iter().enumerate() {
            write_record(f, *highlighted == Some(place), format!("{place:>8}  {relation}"))?;
        }
        Ok(())
    }
}

/// The `>` stands in the place of a space, so that columns stay; an id of eight digits or more has none.
fn write_record(f: &mut fmt::Formatter<'_>, highlighted: bool, line: String) -> fmt::Result {
    match highlighted {
        true => writeln!(f, ">{}", line.strip_prefix(' ').unwrap_or(&line)),
        false => writeln!(f, "{line}"),
    }
}

/// Numbers are written so that reading them gives the same bits.
///
/// ```
/// use mulkefi::{Drawing, Kind};
///
/// let mut drawing = Drawing::new();
/// let c = drawing.add_point(0.5, -2.0);
/// drawing.add_curve(Kind::Circle { c, radius: 3.0 });
/// let text = "\
/// next id 3
/// 1 points
///        1  0.5, -2.0
/// 1 curves
///        2  circle of 1, radius 3.0
/// 0 relations
/// ";
/// assert_eq!(drawing.to_string(), text);
/// ```
impl fmt::Display for Drawing {
    fn fmt(&self, f: &mut fmt::Formatter<'_>) -> fmt::Result {
        Listing { drawing: self, highlighted: None }.fmt(f)
    }
}

impl fmt::Display for Point {
    fn fmt(&self, f: &mut fmt::Formatter<'_>) -> fmt::Result {
        let fixed = if self.fixed { ", fixed" } else { "" };
        write!(f, "{:>8}  {:?}, {:?}{fixed}", self.id, self.x, self.y)
    }
}

impl fmt::Display for Curve {
    fn fmt(&self, f: &mut fmt::Formatter<'_>) -> fmt::Result {
        let points: Vec<String> = self.kind.points().iter().map(u32::to_string).collect();
        write!(f, "{:>8}  {} of {}", self.id, self.kind.name(), points.join(", "))?;
        match self.kind {
            Kind::Circle { radius, .. } => write!(f, ", radius {radius:?}")?,
            Kind::Conic { rho, .. } => write!(f, ", rho {rho:?}")?,
            _ => {}
        }
        let flags = [
            (self.construction, "construction"),
            (self.centerline, "centerline"),
            (self.infinite, "infinite"),
        ];
        let mut set = flags.iter().filter(|(set, _)| *set);
        set.try_for_each(|(_, name)| write!(f, ", {name}"))
    }
}

impl fmt::Display for Relation {
    fn fmt(&self, f: &mut fmt::Formatter<'_>) -> fmt::Result {
        let [first, second] = self.ids();
        write!(f, "{} of {first}", self.name())?;
        if second != 0 {
            write!(f, ", {second}")?;
        }
        self.value().map_or(Ok(()), |value| write!(f, ", {value:?}"))
    }
}
