//! Which curve is under a finger.

use crate::drawing::{Curve, Drawing, Id};
use crate::position::Position;
use crate::stroke::Stroke;
use std::f64::consts::TAU;

impl Drawing {
    /// The id of the curve that is nearest to a finger, or none where no curve is within that distance.
    ///
    /// Distances are those to the curve's stroke ([`Stroke::distance`]); an infinite line has no ends. Of two
    /// curves at one distance it is the one with the lower id. A curve of which a point is missing or not
    /// finite is passed over. For a finger that is not finite, and within a negative distance or a NaN, there
    /// is none.
    ///
    /// ```
    /// use mulkefi::{Drawing, Kind};
    ///
    /// let mut drawing = Drawing::new();
    /// let [a, b, c] = [(0.0, 0.0), (4.0, 0.0), (2.0, 3.0)].map(|(x, y)| drawing.add_point(x, y));
    /// let deck = drawing.add_curve(Kind::Line { a, b });
    /// let wheel = drawing.add_curve(Kind::Circle { c, radius: 1.0 });
    /// assert_eq!(drawing.nearest(1.0, 0.4, 0.5), Some(deck));
    /// assert_eq!(drawing.nearest(2.0, 1.6, 0.5), Some(wheel));
    /// assert_eq!(drawing.nearest(2.0, 1.0, 0.5), None);
    ///
    /// // Deck and wheel are both 1 away.
    /// assert_eq!(drawing.nearest(2.0, 1.0, 1.0), Some(deck));
    /// ```
    pub fn nearest(&self, x: f64, y: f64, within: f64) -> Option<Id> {
        let finger = Position::new(x, y);
        let near = self.curves.iter().filter_map(|curve| {
            let distance = curve_distance(self, curve, finger)?;
            (distance.is_finite() && distance <= within).then_some((distance, curve.id))
        });
        let nearest =
            near.min_by(|(first, low), (second, high)| first.total_cmp(second).then(low.cmp(high)));
        nearest.map(|(_, id)| id)
    }
}

/// None where a point of the curve is missing.
fn curve_distance(drawing: &Drawing, curve: &Curve, to: Position) -> Option<f64> {
    let stroke = Stroke::of(drawing, curve)?;
    Some(match &stroke {
        Stroke::Path(ends) if curve.infinite => match ends[..] {
            [a, b] => endless_distance(a, b, to),
            _ => stroke.distance(to),
        },
        _ => stroke.distance(to),
    })
}

impl Stroke {
    /// How far a position is from the stroke, which is 0 on it: from a circle along its radius, from an arc
    /// along its radius within its sweep and to its nearer end elsewhere, from a path to the nearest of its
    /// straight steps.
    ///
    /// Of lines, arcs and circles that is the distance to the curve itself. The path of a Bézier or a conic
    /// is one of short steps, which keep close to the curve. The distance to a path without positions is
    /// infinite, and where a coordinate is a NaN it is a NaN.
    ///
    /// ```
    /// use mulkefi::{Position, Stroke};
    ///
    /// let [centre, east, north] = [(0.0, 0.0), (2.0, 0.0), (0.0, 2.0)].map(|(x, y)| Position::new(x, y));
    /// let quarter = Stroke::arc(centre, east, north);
    /// assert!((quarter.distance(Position::new(3.0, 4.0)) - 3.0).abs() < 1e-12);
    /// assert!((quarter.distance(Position::new(5.0, -4.0)) - 5.0).abs() < 1e-12);
    /// let chord = Stroke::Path(vec![east, north]);
    /// assert_eq!(chord.distance(Position::new(5.0, -4.0)), 5.0);
    /// ```
    pub fn distance(&self, to: Position) -> f64 {
        match self {
            Stroke::Circle { centre, radius } => (centre.distance(to) - radius).abs(),
            Stroke::Arc { centre, radius, start, sweep } => {
                let turn = (centre.angle_to(to) - start).rem_euclid(TAU);
                if turn <= *sweep {
                    return (centre.distance(to) - radius).abs();
                }
                let ends = [*start, start + sweep].map(|angle| centre.step(angle, *radius));
                lesser(ends[0].distance(to), ends[1].distance(to))
            }
            Stroke::Path(positions) => path_distance(positions, to),
        }
    }
}

fn path_distance(positions: &[Position], to: Position) -> f64 {
    match positions {
        [] => f64::INFINITY,
        [only] => only.distance(to),
        _ => {
            let steps = positions.windows(2).map(|step| segment_distance(step[0], step[1], to));
            steps.fold(f64::INFINITY, lesser)
        }
    }
}

/// The distance to the nearer end, or between the two across the segment. The ends are asked for in any
/// case, so that at an end which two segments share the distances are equal to the bit.
fn segment_distance(a: Position, b: Position, to: Position) -> f64 {
    let end = lesser(a.distance(to), b.distance(to));
    let length = a.distance(b);
    if length == 0.0 {
        return end;
    }
    let [along, across] = components(a, b, to);
    if along <= 0.0 || along >= length {
        return end;
    }
    lesser(end, across.abs())
}

/// The distance to a line without ends, or to the one position where both of its points lie.
fn endless_distance(a: Position, b: Position, to: Position) -> f64 {
    match a.distance(b) == 0.0 {
        true => a.distance(to),
        false => components(a, b, to)[1].abs(),
    }
}

/// How far a position lies along and across the direction from `a` to `b`. A direction of length 1 keeps
/// the products of large coordinates finite.
fn components(a: Position, b: Position, to: Position) -> [f64; 2] {
    let length = a.distance(b);
    let (ux, uy) = ((b.x - a.x) / length, (b.y - a.y) / length);
    let (dx, dy) = (to.x - a.x, to.y - a.y);
    [dx * ux + dy * uy, dy * ux - dx * uy]
}

/// The lesser of two numbers, or a NaN where one is.
fn lesser(first: f64, second: f64) -> f64 {
    match first.is_nan() || first < second {
        true => first,
        false => second,
    }
}

#[cfg(test)]
mod tests {
    use super::*;
    use crate::drawing::Kind;

    /// A drawing with a curve through these positions, and its id.
    fn drawn<const N: usize>(
        positions: [(f64, f64); N],
        kind: impl FnOnce([Id; N]) -> Kind,
    ) -> (Drawing, Id) {
        let mut drawing = Drawing::new();
        let ids = positions.map(|(x, y)| drawing.add_point(x, y));
        let curve = drawing.add_curve(kind(ids));
        (drawing, curve)
    }

    fn line([a, b]: [Id; 2]) -> Kind {
        Kind::Line { a, b }
    }

    fn arc([c, a, b]: [Id; 3]) -> Kind {
        Kind::Arc { c, a, b }
    }

    /// The curve is found within the distance and a little more, and not within a little less.
    fn check((drawing, curve): &(Drawing, Id), at: (f64, f64), distance: f64) {
        let found = |within| drawing.nearest(at.0, at.1, within);
        assert_eq!(found(distance + 1e-9), Some(*curve), "{at:?} within {distance}");
        assert_eq!(found(distance - 1e-9), None, "{at:?} outside {distance}");
    }

    #[test]
    fn lines_are_segments() {
        let segment = drawn([(0.0, 0.0), (4.0, 0.0)], line);
        for (at, distance) in [
            ((1.0, 2.0), 2.0),
            ((3.0, -0.5), 0.5),
            ((-3.0, 4.0), 5.0),
            ((7.0, -4.0), 5.0),
            ((4.0, 0.0), 0.0),
        ] {
            check(&segment, at, distance);
        }
        check(&drawn([(1.0, 1.0), (4.0, 5.0)], line), (1.0, 6.0), 3.0);
    }

    #[test]
    fn infinite_lines_have_no_ends() {
        let mut endless = drawn([(0.0, 0.0), (4.0, 0.0)], line);
        check(&endless, (9.0, 3.0), 34f64.sqrt());
        endless.0.curves[0].infinite = true;
        check(&endless, (9.0, 3.0), 3.0);
        check(&endless, (-1e6, -7.0), 7.0);
        check(&endless, (2.0, 0.25), 0.25);
    }

    #[test]
    fn lines_without_length_are_positions() {
        let mut dot = drawn([(1.0, 1.0), (1.0, 1.0)], line);
        check(&dot, (4.0, 5.0), 5.0);
        check(&dot, (1.0, 1.0), 0.0);
        dot.0.curves[0].infinite = true;
        check(&dot, (4.0, 5.0), 5.0);
    }

    #[test]
    fn arcs_end_with_their_sweep() {
        let quarter = drawn([(1.0, 1.0), (3.0, 1.0), (1.0, 3.0)], arc);
        let within = [((4.0, 5.0), 3.0), ((1.5, 1.0), 1.5), ((1.0, 2.0), 1.0), ((3.0, 1.0), 0.0)];
        // Behind the first end, behind the last, and on the side of neither.
        let outside = [((6.0, -3.0), 5.0), ((-2.0, 7.0), 5.0), ((-1.0, -1.0), 20f64.sqrt())];
        within.into_iter().chain(outside).for_each(|(at, distance)| check(&quarter, at, distance));
        // The other three quarters.
        let rest = drawn([(1.0, 1.0), (1.0, 3.0), (3.0, 1.0)], arc);
        check(&rest, (-2.0, -3.0), 3.0);
        check(&rest, (3.0, 3.0), 2.0);
    }

    #[test]
    fn an_arc_whose_ends_lie_together_is_whole() {
        let whole = drawn([(1.0, 1.0), (3.0, 1.0), (3.0, 1.0)], arc);
        for (at, distance) in [((4.0, 5.0), 3.0), ((-2.0, -3.0), 3.0), ((1.0, -1.5), 0.5)] {
            check(&whole, at, distance);
        }
    }

    #[test]
    fn circles_are_rings() {
        let ring = drawn([(1.0, 1.0)], |[c]| Kind::Circle { c, radius: 2.0 });
        for (at, distance) in [((4.0, 5.0), 3.0), ((1.0, 1.0), 2.0), ((1.0, -0.5), 0.5)] {
            check(&ring, at, distance);
        }
    }

    #[test]
    fn freeform_curves_are_short_steps() {
        let arch = drawn([(0.0, 0.0), (2.0, 4.0), (4.0, 0.0)], |points| {
            let points = points.to_vec();
            Kind::Bezier { points }
        });
        // The top is at half of the height of the middle point; the ends have nothing behind them.
        for (at, distance) in [((2.0, 2.0), 0.0), ((2.0, 5.0), 3.0), ((0.0, -2.0), 2.0)] {
            check(&arch, at, distance);
        }
        let conic = drawn([(0.0, 0.0), (2.0, 4.0), (4.0, 0.0)], |[a, apex, b]| Kind::Conic {
            a,
            apex,
            b,
            rho: 0.75,
        });
        for (at, distance) in [((2.0, 3.0), 0.0), ((2.0, 5.0), 2.0), ((4.0, -2.0), 2.0)] {
            check(&conic, at, distance);
        }
    }

    #[test]
    fn of_two_as_near_it_is_the_lower_id() {
        let mut drawing = Drawing::new();
        let [a, b, c] = [(0.0, 0.0), (3.0, 1.0), (6.0, 5.0)].map(|(x, y)| drawing.add_point(x, y));
        let first = drawing.add_curve(Kind::Line { a, b });
        let second = drawing.add_curve(Kind::Line { a: b, b: c });
        assert_eq!(drawing.nearest(3.0, 1.0, 0.0), Some(first));
        assert_eq!(drawing.nearest(4.0, 0.0, 9.0), Some(first));
        assert_eq!(drawing.nearest(5.5, 4.0, 9.0), Some(second));
        // In whatever order the table has them.
        drawing.curves.reverse();
        assert_eq!(drawing.nearest(3.0, 1.0, 0.0), Some(first));
    }

    /// Rounding must not put a finger that is at a shared end nearer to one of its lines.
    #[test]
    fn at_an_end_the_distance_is_nothing() {
        for (i, j) in (0..900).map(|case| (f64::from(case / 30), f64::from(case % 30))) {
            let (a, b) = (Position::new(0.1 * i, 0.3 * j), Position::new(7.7 - 0.7 * j, 0.9 * i));
            let segment = Stroke::Path(vec![a, b]);
            assert_eq!((segment.distance(a), segment.distance(b)), (0.0, 0.0), "{a:?} to {b:?}");
        }
    }

    #[test]
    fn a_nan_anywhere_is_the_distance() {
        let positions = [0.0, 1.0, 2.0].map(|x| Position::new(x, 0.0));
        assert_eq!(Stroke::Path(positions.to_vec()).distance(Position::new(1.0, 3.0)), 3.0);
        for place in 0..positions.len() {
            let mut spoilt = positions.to_vec();
            spoilt[place].y = f64::NAN;
            assert!(Stroke::Path(spoilt).distance(Position::new(1.0, 3.0)).is_nan(), "{place}");
        }
        assert_eq!(Stroke::Path(Vec::new()).distance(positions[0]), f64::INFINITY);
        assert_eq!(Stroke::Path(vec![positions[0]]).distance(positions[2]), 2.0);
    }

    #[test]
    fn numbers_that_are_none_find_nothing() {
        let (drawing, curve) = drawn([(0.0, 0.0), (4.0, 0.0)], line);
        assert_eq!(drawing.nearest(1.0, 0.0, 0.0), Some(curve));
        assert_eq!(drawing.nearest(1.0, 1e300, f64::INFINITY), Some(curve));
        for within in [f64::NAN, -1.0, f64::NEG_INFINITY] {
            assert_eq!(drawing.nearest(1.0, 0.0, within), None);
        }
        for number in [f64::NAN, f64::INFINITY, f64::NEG_INFINITY] {
            assert_eq!(drawing.nearest(number, 0.0, f64::INFINITY), None);
            assert_eq!(drawing.nearest(0.0, number, f64::INFINITY), None);
        }
    }

    #[test]
    fn what_can_not_be_drawn_is_passed_over() {
        assert_eq!(Drawing::new().nearest(0.0, 0.0, f64::INFINITY), None);
        let (mut drawing, far) = drawn([(0.0, 9.0), (4.0, 9.0)], line);
        drawing.add_curve(Kind::Line { a: 1, b: 77 });
        drawing.add_curve(Kind::Bezier { points: Vec::new() });
        drawing.add_curve(Kind::Circle { c: 1, radius: f64::NAN });
        let [a, b] = [f64::NAN, f64::INFINITY].map(|x| drawing.add_point(x, 0.0));
        drawing.add_curve(Kind::Line { a: 1, b: a });
        drawing.add_curve(Kind::Line { a: 1, b });
        drawing.add_curve(Kind::Bezier { points: vec![1, a, 2] });
        assert_eq!(drawing.nearest(0.0, 8.0, f64::INFINITY), Some(far));
    }
}
