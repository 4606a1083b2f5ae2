//! A solver that moves nothing: it says whether every constraint is met as things stand.

use crate::{ConstraintKind, CurveKind, Shape, Sketch};
use cad_geom::Vec2;

/// A measure within this counts as met.
const TOLERANCE: f64 = 1e-7;

/// What upstream wants held still, which here everything is.
pub struct Hold {
    pub points: Vec<usize>,
    pub radii: Vec<usize>,
}

/// How thorough upstream wants the analysis.
pub enum Analysis {
    Full,
}

/// The place of a constraint that is not met, if there is one.
pub struct Solution {
    unmet: Option<usize>,
}

impl Solution {
    pub fn ok(&self) -> bool {
        self.unmet.is_none()
    }
}

pub fn solve(sketch: &Sketch) -> Solution {
    Solution { unmet: first_unmet(sketch) }
}

pub fn solve_with(
    sketch: &Sketch,
    _hold: &Hold,
    _drag: Option<Vec2>,
    _analysis: Analysis,
    _limit: Option<usize>,
) -> Solution {
    solve(sketch)
}

/// The place of the first constraint in table order that is not met.
pub fn first_unmet(sketch: &Sketch) -> Option<usize> {
    unmet(sketch).next()
}

/// The places of the constraints that are not met, in table order.
pub fn unmet(sketch: &Sketch) -> impl Iterator<Item = usize> + '_ {
    let is_unmet = |place: &usize| !is_met(sketch, &sketch.constraints[*place].kind);
    (0..sketch.constraints.len()).filter(is_unmet)
}

fn is_met(sketch: &Sketch, kind: &ConstraintKind) -> bool {
    let point = |place: usize| sketch.points[place].pos;
    let line = |place: usize| match sketch.curves[place].kind {
        CurveKind::Line { a, b } => (point(a), point(b)),
        _ => unreachable!("constraints on lines name lines"),
    };
    let near = |distance: f64| distance <= TOLERANCE;
    let same = |measure: f64, value: f64| near((measure - value).abs());
    match *kind {
        ConstraintKind::Coincident { p, q } => near(point(p).dist(point(q))),
        ConstraintKind::PointOnCurve { p, c } => {
            sketch.shape(c).is_none_or(|shape| near(shape.dist(point(p))))
        }
        ConstraintKind::Collinear { a, b } => {
            let ((start, end), (p, q)) = (line(a), line(b));
            let support = Shape::Line { a: start, b: end };
            near(support.dist(p)) && near(support.dist(q))
        }
        ConstraintKind::Equal { a, b } => same(extent(sketch, a), extent(sketch, b)),
        ConstraintKind::Length { l, value } => {
            let (a, b) = line(l);
            same(a.dist(b), value)
        }
        ConstraintKind::Distance { p, q, value } => same(point(p).dist(point(q)), value),
        ConstraintKind::Midpoint { p, l } => {
            let (a, b) = line(l);
            near(point(p).dist((a + b) * 0.5))
        }
        // Nothing measures these.
        ConstraintKind::ArcLength { .. } | ConstraintKind::ArcSweep { .. } => true,
    }
}

/// A line's length or a round's radius.
fn extent(sketch: &Sketch, curve: usize) -> f64 {
    match sketch.shape(curve) {
        Some(Shape::Line { a, b }) => a.dist(b),
        Some(Shape::Round { r, .. }) => r,
        None => unreachable!("only lines and rounds are compared"),
    }
}

#[cfg(test)]
mod tests {
    use super::*;
    use crate::{Constraint, Curve, Point};

    const BEYOND: f64 = 1.001e-7;

    fn point(x: f64, y: f64) -> Point {
        Point { id: 0, pos: Vec2::new(x, y), fixed: false }
    }

    fn curve(kind: CurveKind) -> Curve {
        let (reversed, construction, centerline) = (false, false, false);
        Curve {
            id: 0,
            kind,
            construction,
            reversed,
            link: None,
            centerline,
            fixed: false,
            infinite: false,
        }
    }

    /// Two level lines, two circles and an arch; the last point lies `off` the first.
    fn sketch(off: f64, kind: ConstraintKind) -> Sketch {
        let positions = [(0.0, 0.0), (2.0, 0.0), (3.0, 0.0), (5.0, off), (0.0, off), (1.0, off)];
        let bezier = CurveKind::Bezier { degree: 1, points: [0, 1, 0, 0, 0, 0, 0, 0] };
        let kinds = [
            CurveKind::Line { a: 0, b: 1 },
            CurveKind::Line { a: 2, b: 3 },
            CurveKind::Circle { c: 0, r: 1.0 },
            CurveKind::Circle { c: 1, r: 1.0 + off },
            bezier,
        ];
        Sketch {
            points: positions.iter().map(|(x, y)| point(*x, *y)).collect(),
            curves: kinds.into_iter().map(curve).collect(),
            constraints: vec![Constraint { kind }],
            next_id: 1,
            removed: None,
        }
    }

    fn is_met(off: f64, kind: ConstraintKind) -> bool {
        first_unmet(&sketch(off, kind)).is_none()
    }

    #[test]
    fn a_measure_is_met_up_to_its_tolerance() {
        let kinds = [
            ConstraintKind::Coincident { p: 0, q: 4 },
            ConstraintKind::PointOnCurve { p: 4, c: 0 },
            ConstraintKind::Collinear { a: 0, b: 1 },
            ConstraintKind::Equal { a: 2, b: 3 },
            ConstraintKind::Distance { p: 0, q: 4, value: 0.0 },
            ConstraintKind::Midpoint { p: 5, l: 0 },
        ];
        for kind in kinds {
            assert!(is_met(0.0, kind), "{kind:?}");
            assert!(is_met(0.999e-7, kind), "{kind:?}");
            assert!(!is_met(BEYOND, kind), "{kind:?}");
        }
        assert!(is_met(1e-7, kinds[0]));
    }

    #[test]
    fn a_length_is_compared_with_its_value() {
        assert!(is_met(0.0, ConstraintKind::Length { l: 0, value: 2.0 }));
        assert!(!is_met(0.0, ConstraintKind::Length { l: 0, value: 2.0 + BEYOND }));
        assert!(!is_met(0.0, ConstraintKind::Length { l: 0, value: 2.0 - BEYOND }));
    }

    #[test]
    fn the_first_of_several_unmet_is_named_by_its_place_from_0() {
        let (met, unmet_kind) = (
            ConstraintKind::Length { l: 0, value: 2.0 },
            ConstraintKind::Length { l: 0, value: 3.0 },
        );
        let table = |kinds: &[ConstraintKind]| {
            let constraints = kinds.iter().map(|kind| Constraint { kind: *kind }).collect();
            Sketch { constraints, ..sketch(0.0, met) }
        };
        let several = table(&[met, met, unmet_kind, met, unmet_kind, unmet_kind]);
        assert_eq!(first_unmet(&several), Some(2));
        assert_eq!(unmet(&several).collect::<Vec<_>>(), [2, 4, 5]);
        assert_eq!(first_unmet(&table(&[unmet_kind, met, unmet_kind])), Some(0));
        assert_eq!(first_unmet(&table(&[met, unmet_kind])), Some(1));
        assert_eq!(first_unmet(&table(&[met, met])), None);
        assert_eq!(first_unmet(&table(&[])), None);
    }

    #[test]
    fn what_nothing_measures_is_met() {
        assert!(is_met(0.0, ConstraintKind::PointOnCurve { p: 4, c: 4 }));
        assert!(is_met(0.0, ConstraintKind::ArcLength { c: 2, value: 9.0 }));
        assert!(is_met(0.0, ConstraintKind::ArcSweep { c: 2, value: 9.0 }));
    }
}
