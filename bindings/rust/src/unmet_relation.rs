//! The relation that a refusal by 13 or 19 names.

use crate::drawing::Drawing;
use crate::refusal::Refusal;
use crate::relation::Relation;
use std::fmt;

/// The first relation that is not met, or would not be after the edit.
#[derive(Clone, Copy, Debug, PartialEq)]
pub enum UnmetRelation<'d> {
    /// One of the drawing's.
    Standing(&'d Relation),
    /// The pin, which the edit would have added behind them: it fastens the line's new end to the curve
    /// that stops it. The drawing does not hold it; a host highlights the curve of its edit.
    Pin,
}

impl Refusal {
    /// The relation whose place comes with 13 and 19, in the drawing whose edit was refused.
    ///
    /// There is none for any other refusal, nor for a place that this drawing cannot have.
    ///
    /// 13 names the first relation of the drawing that is not met:
    ///
    /// ```
    /// use mulkefi::{Desk, Drawing, Edit, Kind, Mark, Operation, Refusal, Relation, UnmetRelation};
    ///
    /// let mut drawing = Drawing::new();
    /// let (a, b) = (drawing.add_point(0.0, 0.0), drawing.add_point(2.0, 0.0));
    /// let beam = drawing.add_curve(Kind::Line { a, b });
    /// let (p, q) = (drawing.add_point(5.0, -1.0), drawing.add_point(5.0, 1.0));
    /// let post = drawing.add_curve(Kind::Line { a: p, b: q });
    /// // The first is met; the post is 2 long, not 3; a and b are 2 apart, not 4; b does not lie at p.
    /// drawing.relations = vec![
    ///     Relation::Length { line: beam, value: 2.0 },
    ///     Relation::Length { line: post, value: 3.0 },
    ///     Relation::Distance { p: a, q: b, value: 4.0 },
    ///     Relation::Coincident { p: b, q: p },
    /// ];
    /// let extend = Edit { operation: Operation::Extend, curve: beam, x: 2.0, y: 0.0 };
    /// let mut desk = Desk::start(&drawing.to_image(), Mark::from(7))?;
    /// let refusal = desk.edit(&extend).unwrap_err();
    /// assert_eq!(refusal, Refusal::Unmet { place: 1 });
    /// let named = refusal.relation(&drawing);
    /// assert_eq!(named, Some(UnmetRelation::Standing(&Relation::Length { line: post, value: 3.0 })));
    /// # Ok::<(), Refusal>(())
    /// ```
    ///
    /// 19 names the first that would not be met after the edit, or the pin that the edit adds:
    ///
    /// ```
    /// use mulkefi::{Desk, Drawing, Edit, Kind, Mark, Operation, Refusal, Relation, UnmetRelation};
    ///
    /// let mut drawing = Drawing::new();
    /// let (a, b) = (drawing.add_point(0.0, 0.0), drawing.add_point(2.0, 0.0));
    /// let beam = drawing.add_curve(Kind::Line { a, b });
    /// // The beam, prolonged, meets the post 0.0000005 above its foot, and would be pinned to the foot.
    /// let (p, q) = (drawing.add_point(5.0, -5e-7), drawing.add_point(5.0, 1.0));
    /// drawing.add_curve(Kind::Line { a: p, b: q });
    /// let extend = Edit { operation: Operation::Extend, curve: beam, x: 2.0, y: 0.0 };
    ///
    /// let length = Relation::Length { line: beam, value: 2.0 };
    /// drawing.relations = vec![length, Relation::Distance { p: a, q: b, value: 2.0 }];
    /// let mut desk = Desk::start(&drawing.to_image(), Mark::from(7))?;
    /// let refusal = desk.edit(&extend).unwrap_err();
    /// assert_eq!(refusal, Refusal::Conflict { place: 0 });
    /// assert_eq!(refusal.relation(&drawing), Some(UnmetRelation::Standing(&length)));
    ///
    /// drawing.relations = vec![Relation::PointOnCurve { p: a, curve: beam }];
    /// let mut desk = Desk::start(&drawing.to_image(), Mark::from(7))?;
    /// let refusal = desk.edit(&extend).unwrap_err();
    /// assert_eq!(refusal, Refusal::Conflict { place: 1 });
    /// assert_eq!(refusal.relation(&drawing), Some(UnmetRelation::Pin));
    ///
    /// assert_eq!(refusal.relation(&Drawing::new()), None);
    /// assert_eq!(Refusal::Tie.relation(&drawing), None);
    /// # Ok::<(), Refusal>(())
    /// ```
    pub fn relation(self, drawing: &Drawing) -> Option<UnmetRelation<'_>> {
        match self {
            Refusal::Conflict { place } if place == drawing.relations.len() => {
                Some(UnmetRelation::Pin)
            }
            _ => drawing.relation(self.place()?).map(UnmetRelation::Standing),
        }
    }
}

/// For the person at the desk, behind the refusal's own sentence.
///
/// ```
/// use mulkefi::{Relation, UnmetRelation};
///
/// let relation = Relation::Length { line: 3, value: 2.0 };
/// assert_eq!(UnmetRelation::Standing(&relation).to_string(), "Length of 3, 2.0");
/// assert_eq!(UnmetRelation::Pin.to_string(), "the pin that the edit would have added");
/// ```
impl fmt::Display for UnmetRelation<'_> {
    fn fmt(&self, f: &mut fmt::Formatter<'_>) -> fmt::Result {
        match self {
            UnmetRelation::Standing(relation) => relation.fmt(f),
            UnmetRelation::Pin => f.write_str("the pin that the edit would have added"),
        }
    }
}
