//! The stroke of a piece that an edit removed.

use crate::drawing::{Drawing, Id, Kind};
use crate::edit::Report;
use crate::position::Position;
use crate::stroke::Stroke;

impl Stroke {
    /// The piece that an edit of this curve removed, from the drawings before and after the edit and its
    /// report: part of a line or an arc, part of a circle, or a whole one. There is none where the report
    /// tells of nothing that was removed, or is not that of an edit of this curve between these drawings.
    ///
    /// ```
    /// use mulkefi::{read, Desk, Drawing, Edit, Kind, Mark, Operation, Position, Stroke};
    ///
    /// let mut drawing = Drawing::new();
    /// let [a, b, p, q] = [(0.0, 0.0), (9.0, 0.0), (6.0, -1.0), (6.0, 1.0)]
    ///     .map(|(x, y)| drawing.add_point(x, y));
    /// let deck = drawing.add_curve(Kind::Line { a, b });
    /// drawing.add_curve(Kind::Line { a: p, b: q });
    /// let mut desk = Desk::start(&drawing.to_image(), Mark::from(7))?;
    ///
    /// // The deck is cut off where the post crosses it.
    /// let trim = Edit { operation: Operation::Trim, curve: deck, x: 8.0, y: 0.0 };
    /// let report = desk.edit(&trim)?.report;
    /// let after = read(desk.image()).expect("a desk holds a good image");
    /// let piece = Stroke::removed(&drawing, &after, deck, &report);
    /// let ends = vec![Position::new(6.0, 0.0), Position::new(9.0, 0.0)];
    /// assert_eq!(piece, Some(Stroke::Path(ends)));
    /// # Ok::<(), mulkefi::Refusal>(())
    /// ```
    pub fn removed(
        before: &Drawing,
        after: &Drawing,
        curve: Id,
        report: &Report,
    ) -> Option<Stroke> {
        if report.removed == 0 {
            return None;
        }
        let edited = before.curve(curve)?;
        // A cut adds its point to the drawing after it; an end that no other curve uses is only in the
        // drawing before it.
        let at = |id: Id| {
            let point = before.point(id).or(after.point(id))?;
            Some(Position::new(point.x, point.y))
        };
        match edited.kind {
            // A circle that was removed whole has no ends.
            Kind::Circle { .. } if report.start == 0 => Stroke::of(before, edited),
            Kind::Line { .. } => Some(Stroke::Path(vec![at(report.start)?, at(report.end)?])),
            Kind::Arc { c, .. } | Kind::Circle { c, .. } => {
                Some(Stroke::arc(at(c)?, at(report.start)?, at(report.end)?))
            }
            // No edit removes anything of a freeform curve.
            Kind::Bezier { .. } | Kind::Conic { .. } => None,
        }
    }
}

#[cfg(test)]
mod tests {
    use super::*;
    use crate::{read, Desk, Edit, Mark, Operation};
    use std::f64::consts::PI;

    /// A beam along y = 0 from -9 to 9, for the other curves to be cut by.
    fn with_beam() -> Drawing {
        let mut drawing = Drawing::new();
        let (a, b) = (drawing.add_point(-9.0, 0.0), drawing.add_point(9.0, 0.0));
        drawing.add_curve(Kind::Line { a, b });
        drawing
    }

    /// The piece that a desk's edit removes.
    fn removed(
        before: &Drawing,
        operation: Operation,
        curve: Id,
        (x, y): (f64, f64),
    ) -> Option<Stroke> {
        let mut desk = Desk::start(&before.to_image(), Mark::from(7)).expect("a good image");
        let edit = Edit { operation, curve, x, y };
        let report = desk.edit(&edit).expect("the edit is accepted").report;
        let after = read(desk.image()).expect("a desk holds a good image");
        Stroke::removed(before, &after, curve, &report)
    }

    fn near(found: Position, expected: (f64, f64)) -> bool {
        found.distance(Position::new(expected.0, expected.1)) < 1e-9
    }

    #[track_caller]
    fn check_ends(stroke: &Stroke, from: (f64, f64), to: (f64, f64)) {
        let positions = stroke.positions();
        let (first, last) = (positions[0], positions[positions.len() - 1]);
        assert!(near(first, from) && near(last, to), "{stroke:?}");
    }

    #[test]
    fn pieces_of_lines() {
        let mut drawing = with_beam();
        for x in [-3.0, 5.0] {
            let (a, b) = (drawing.add_point(x, -2.0), drawing.add_point(x, 2.0));
            drawing.add_curve(Kind::Line { a, b });
        }
        let beam = drawing.curves[0].id;
        for (x, ends) in [(-8.0, [-9.0, -3.0]), (0.0, [-3.0, 5.0]), (8.0, [5.0, 9.0])] {
            let piece = removed(&drawing, Operation::Trim, beam, (x, 0.0)).expect("a piece");
            let ends = ends.map(|x| Position::new(x, 0.0));
            assert_eq!(piece, Stroke::Path(ends.to_vec()));
        }
        let post = drawing.curves[1].id;
        let piece = removed(&drawing, Operation::Trim, post, (-3.0, 1.0)).expect("a piece");
        check_ends(&piece, (-3.0, 0.0), (-3.0, 2.0));
    }

    #[test]
    fn a_line_that_nothing_crosses_is_removed_whole() {
        let drawing = with_beam();
        let beam = drawing.curves[0].id;
        let piece = removed(&drawing, Operation::Trim, beam, (0.0, 0.0)).expect("the whole");
        check_ends(&piece, (-9.0, 0.0), (9.0, 0.0));
    }

    #[test]
    fn pieces_of_arcs() {
        let mut drawing = with_beam();
        let [c, a, b] = [(0.0, -3.0), (5.0, -3.0), (-5.0, -3.0)];
        let [c, a, b] = [c, a, b].map(|(x, y)| drawing.add_point(x, y));
        let arc = drawing.add_curve(Kind::Arc { c, a, b });
        for (pick, from, to) in [
            ((4.9, -2.0), (5.0, -3.0), (4.0, 0.0)),
            ((0.0, 2.0), (4.0, 0.0), (-4.0, 0.0)),
            ((-4.9, -2.0), (-4.0, 0.0), (-5.0, -3.0)),
        ] {
            let piece = removed(&drawing, Operation::Trim, arc, pick).expect("a piece");
            check_ends(&piece, from, to);
            let Stroke::Arc { centre, radius, .. } = piece else { panic!("{piece:?}") };
            assert!(near(centre, (0.0, -3.0)) && (radius - 5.0).abs() < 1e-9);
        }
    }

    #[test]
    fn a_circle_that_is_cut_leaves_an_arc() {
        let mut drawing = with_beam();
        let c = drawing.add_point(0.0, 0.0);
        let wheel = drawing.add_curve(Kind::Circle { c, radius: 5.0 });
        for (pick, from, to) in
            [((0.0, 5.0), (5.0, 0.0), (-5.0, 0.0)), ((0.0, -5.0), (-5.0, 0.0), (5.0, 0.0))]
        {
            let piece = removed(&drawing, Operation::Trim, wheel, pick).expect("a piece");
            check_ends(&piece, from, to);
            let Stroke::Arc { sweep, .. } = piece else { panic!("{piece:?}") };
            assert!((sweep - PI).abs() < 1e-9);
        }
    }

    #[test]
    fn a_circle_that_nothing_crosses_is_removed_whole() {
        let mut drawing = with_beam();
        let c = drawing.add_point(0.0, 9.0);
        let wheel = drawing.add_curve(Kind::Circle { c, radius: 5.0 });
        let piece = removed(&drawing, Operation::Trim, wheel, (0.0, 14.0));
        let whole = Stroke::Circle { centre: Position::new(0.0, 9.0), radius: 5.0 };
        assert_eq!(piece, Some(whole));
    }

    #[test]
    fn a_split_removes_nothing() {
        let mut drawing = with_beam();
        let beam = drawing.curves[0].id;
        assert_eq!(removed(&drawing, Operation::Split, beam, (1.0, 0.0)), None);
        let c = drawing.add_point(0.0, 0.0);
        let wheel = drawing.add_curve(Kind::Circle { c, radius: 5.0 });
        assert_eq!(removed(&drawing, Operation::Split, wheel, (0.0, 5.0)), None);
    }

    #[test]
    fn a_report_of_something_else_gives_none() {
        let drawing = with_beam();
        let beam = drawing.curves[0].id;
        let whole = Report { removed: beam, start: 1, end: 2 };
        assert!(Stroke::removed(&drawing, &drawing, beam, &whole).is_some());
        let other = Report { end: 77, ..whole };
        assert_eq!(Stroke::removed(&drawing, &drawing, beam, &other), None);
        let no_ends = Report { start: 0, end: 0, ..whole };
        assert_eq!(Stroke::removed(&drawing, &drawing, beam, &no_ends), None);
        assert_eq!(Stroke::removed(&drawing, &drawing, 77, &whole), None);
        assert_eq!(Stroke::removed(&drawing, &drawing, beam, &Report::default()), None);
    }
}
