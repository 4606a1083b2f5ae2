//! Drawings made record by record.

use crate::drawing::{Curve, Drawing, Id, Kind, Point};
use crate::relation::Relation;

/// The flags of a new curve, none of them set by default.
#[derive(Clone, Copy, Debug, Default, PartialEq, Eq, Hash)]
pub struct Flags {
    /// Whether the curve is there for construction.
    pub construction: bool,
    /// Whether the curve is an axis.
    pub centerline: bool,
    /// Whether the curve is a line without ends; an image with any other infinite curve is refused.
    pub infinite: bool,
}

/// Building a drawing. Nothing is refused here; [`crate::test`] says whether the image is good.
///
/// A small bridge, whose abutment is fixed and whose deck is held at the axis of the arch:
///
/// ```
/// use mulkefi::{test, Desk, Drawing, Flags, Kind, Mark, Relation};
///
/// let mut bridge = Drawing::new();
/// let abutment = bridge.add_fixed_point(0.0, 0.0);
/// let [end, foot, head] = [(8.0, 0.0), (4.0, -3.0), (4.0, 5.0)].map(|(x, y)| bridge.add_point(x, y));
/// let deck = bridge.add_curve(Kind::Line { a: abutment, b: end });
/// let axis_flags = Flags { construction: true, centerline: true, ..Flags::default() };
/// let axis = bridge.add_curve_with(Kind::Line { a: foot, b: head }, axis_flags);
/// let middle = bridge.add_point(4.0, 0.0);
/// assert_eq!(bridge.relate(Relation::Midpoint { p: middle, line: deck }), 0);
/// assert_eq!(bridge.relate(Relation::PointOnCurve { p: middle, curve: axis }), 1);
///
/// let image = bridge.to_image();
/// assert_eq!(test(&image), Ok(()));
/// let desk = Desk::start(&image, Mark::from(7))?;
/// assert_eq!(desk.image(), image);
/// # Ok::<(), mulkefi::Refusal>(())
/// ```
impl Drawing {
    /// An empty drawing.
    pub fn new() -> Drawing {
        Drawing { next: 1, points: Vec::new(), curves: Vec::new(), relations: Vec::new() }
    }

    /// Adds a point that is not fixed, and answers its id.
    pub fn add_point(&mut self, x: f64, y: f64) -> Id {
        self.push_point(x, y, false)
    }

    /// Adds a fixed point, which no edit moves, and answers its id.
    ///
    /// ```
    /// use mulkefi::{Desk, Drawing, Edit, Kind, Mark, Operation, Refusal};
    ///
    /// let mut drawing = Drawing::new();
    /// let (a, b) = (drawing.add_point(0.0, 0.0), drawing.add_fixed_point(2.0, 0.0));
    /// let beam = drawing.add_curve(Kind::Line { a, b });
    /// let (p, q) = (drawing.add_point(5.0, -1.0), drawing.add_point(5.0, 1.0));
    /// drawing.add_curve(Kind::Line { a: p, b: q });
    /// let mut desk = Desk::start(&drawing.to_image(), Mark::from(7))?;
    /// let extend = Edit { operation: Operation::Extend, curve: beam, x: 2.0, y: 0.0 };
    /// assert_eq!(desk.edit(&extend), Err(Refusal::EndHeld));
    /// # Ok::<(), Refusal>(())
    /// ```
    pub fn add_fixed_point(&mut self, x: f64, y: f64) -> Id {
        self.push_point(x, y, true)
    }

    fn push_point(&mut self, x: f64, y: f64, fixed: bool) -> Id {
        let id = self.take_id();
        self.points.push(Point { id, x, y, fixed });
        id
    }

    /// Adds a curve without flags, and answers its id.
    pub fn add_curve(&mut self, kind: Kind) -> Id {
        self.add_curve_with(kind, Flags::default())
    }

    /// Adds a curve with these flags, and answers its id.
    ///
    /// ```
    /// use mulkefi::{test, Drawing, Flags, Kind, Refusal};
    ///
    /// let mut drawing = Drawing::new();
    /// let (a, b) = (drawing.add_point(0.0, 0.0), drawing.add_point(4.0, 0.0));
    /// let infinite = Flags { infinite: true, ..Flags::default() };
    /// let water = drawing.add_curve_with(Kind::Line { a, b }, infinite);
    /// assert_eq!(drawing.nearest(900.0, 0.0, 0.0), Some(water));
    /// assert_eq!(test(&drawing.to_image()), Ok(()));
    ///
    /// drawing.add_curve_with(Kind::Circle { c: a, radius: 1.0 }, infinite);
    /// assert_eq!(test(&drawing.to_image()), Err(Refusal::Value));
    /// ```
    pub fn add_curve_with(&mut self, kind: Kind, flags: Flags) -> Id {
        let id = self.take_id();
        let Flags { construction, centerline, infinite } = flags;
        self.curves.push(Curve { id, kind, construction, centerline, infinite });
        id
    }

    /// Adds a relation, and answers its place, counted from 0: that by which a refusal names it.
    ///
    /// ```
    /// use mulkefi::{Drawing, Kind, Relation};
    ///
    /// let mut drawing = Drawing::new();
    /// let (a, b) = (drawing.add_point(0.0, 0.0), drawing.add_point(4.0, 0.0));
    /// let line = drawing.add_curve(Kind::Line { a, b });
    /// let place = drawing.relate(Relation::Length { line, value: 4.0 });
    /// assert_eq!(drawing.relation(place), Some(&Relation::Length { line, value: 4.0 }));
    /// ```
    pub fn relate(&mut self, relation: Relation) -> usize {
        self.relations.push(relation);
        self.relations.len() - 1
    }

    /// Past the last id the engine refuses the image, since ids no longer rise.
    fn take_id(&mut self) -> Id {
        let id = self.next;
        self.next = id.saturating_add(1);
        id
    }
}

impl Default for Drawing {
    fn default() -> Drawing {
        Drawing::new()
    }
}

impl Curve {
    /// The curve's flags together.
    pub fn flags(&self) -> Flags {
        let Curve { construction, centerline, infinite, .. } = *self;
        Flags { construction, centerline, infinite }
    }
}

#[cfg(test)]
mod tests {
    use super::*;

    #[test]
    fn each_flag_is_its_own() {
        let mut drawing = Drawing::new();
        let (a, b) = (drawing.add_point(0.0, 0.0), drawing.add_point(4.0, 0.0));
        for bits in 0..8 {
            let [construction, centerline, infinite] = [1, 2, 4].map(|bit| bits & bit != 0);
            let flags = Flags { construction, centerline, infinite };
            let id = drawing.add_curve_with(Kind::Line { a, b }, flags);
            assert_eq!(drawing.curve(id).map(Curve::flags), Some(flags));
        }
        let read = crate::read(&drawing.to_image()).expect("a good image");
        assert_eq!(read, drawing);
        assert_eq!(read.curves[0].flags(), Flags::default());
    }

    #[test]
    fn ids_are_shared_and_places_are_not() {
        let mut drawing = Drawing::new();
        let (a, b) = (drawing.add_point(0.0, 0.0), drawing.add_fixed_point(4.0, 0.0));
        let line = drawing.add_curve(Kind::Line { a, b });
        assert_eq!((a, b, line, drawing.next), (1, 2, 3, 4));
        assert_eq!(
            drawing.points.iter().map(|point| point.fixed).collect::<Vec<_>>(),
            [false, true]
        );
        assert_eq!(drawing.relate(Relation::Length { line, value: 4.0 }), 0);
        assert_eq!(drawing.relate(Relation::Distance { p: a, q: b, value: 4.0 }), 1);
        assert_eq!(drawing.next, 4);
    }

    #[test]
    fn the_last_id_is_refused() {
        let mut drawing = Drawing { next: Id::MAX - 1, ..Drawing::new() };
        assert_eq!(drawing.add_point(0.0, 0.0), Id::MAX - 1);
        assert_eq!(crate::test(&drawing.to_image()), Ok(()));
        assert_eq!(drawing.add_point(1.0, 0.0), Id::MAX);
        assert_eq!(crate::test(&drawing.to_image()), Err(crate::Refusal::Reference));
    }
}
