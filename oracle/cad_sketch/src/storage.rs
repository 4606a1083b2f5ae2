//! The tables of a sketch: look-up, bounded additions, removal.

use crate::{Constraint, ConstraintKind, Curve, CurveKind, Point, Shape, SketchError};
use cad_geom::{Seg2, Vec2};

const MAX_POINTS: usize = 512;
const MAX_CURVES: usize = 128;
const MAX_CONSTRAINTS: usize = 256;
const MAX_COORDINATE: f64 = 1_000_000.0;

#[derive(Clone, Debug, PartialEq)]
pub struct Sketch {
    pub points: Vec<Point>,
    pub curves: Vec<Curve>,
    pub constraints: Vec<Constraint>,
    pub next_id: u32,
    /// The curve that was taken out last.
    pub removed: Option<Removed>,
}

/// A removed curve's id and its end ids as they were at its removal; a circle has ends 0.
#[derive(Clone, Copy, Debug, Default, PartialEq, Eq)]
pub struct Removed {
    pub id: u32,
    pub ends: [u32; 2],
}

type Result<T> = std::result::Result<T, SketchError>;

fn require(holds: bool, error: SketchError) -> Result<()> {
    if holds {
        Ok(())
    } else {
        Err(error)
    }
}

fn in_range(p: Vec2) -> bool {
    p.x.abs() <= MAX_COORDINATE && p.y.abs() <= MAX_COORDINATE
}

impl Sketch {
    pub fn point(&self, place: usize) -> Option<Vec2> {
        self.points.get(place).map(|point| point.pos)
    }

    /// The analytic shape of a curve; freeform curves have none.
    pub fn shape(&self, place: usize) -> Option<Shape> {
        let at = |point: usize| self.points[point].pos;
        match self.curves.get(place)?.kind {
            CurveKind::Line { a, b } => Some(Shape::Line { a: at(a), b: at(b) }),
            CurveKind::Arc { c, a, b } => Some(Shape::arc(at(c), at(a), at(b))),
            CurveKind::Circle { c, r } => Some(Shape::circle(at(c), r)),
            CurveKind::Bezier { .. } | CurveKind::Conic { .. } => None,
        }
    }

    /// A curve as exact pieces: always one.
    pub fn exact_segs(&self, place: usize) -> Option<Vec<Seg2>> {
        let at = |point: usize| self.points[point].pos;
        let seg = match self.curves.get(place)?.kind {
            CurveKind::Bezier { degree, points } => {
                let mut p = [Vec2::default(); 8];
                for (to, from) in p.iter_mut().zip(&points[..=usize::from(degree)]) {
                    *to = at(*from);
                }
                Seg2::Bezier { n: degree, p }
            }
            CurveKind::Conic { a, apex, b, rho } => {
                Seg2::Conic { a: at(a), apex: at(apex), b: at(b), w: rho / (1.0 - rho) }
            }
            CurveKind::Line { .. } | CurveKind::Arc { .. } | CurveKind::Circle { .. } => {
                match self.shape(place)? {
                    Shape::Line { a, b } => Seg2::Line { a, b },
                    Shape::Round { c, r, start, sweep } => {
                        Seg2::Arc { center: c, radius: r, start, sweep }
                    }
                }
            }
        };
        Some(vec![seg])
    }

    /// Upstream's fallback for curves without exact pieces, of which there are none.
    pub fn segs(&self, _place: usize) -> Vec<Seg2> {
        unreachable!("every curve has an exact piece")
    }

    fn take_id(&mut self, room: bool) -> Result<u32> {
        let id = self.next_id;
        let next = id.checked_add(1).ok_or(SketchError::IdsUsedUp)?;
        require(room, SketchError::TableFull)?;
        self.next_id = next;
        Ok(id)
    }

    /// Adds a point at the end of its table and answers its place.
    pub fn add_point(&mut self, pos: Vec2, _name: Option<&str>) -> Result<usize> {
        let id = self.take_id(self.points.len() < MAX_POINTS)?;
        require(in_range(pos), SketchError::OutOfRange)?;
        self.points.push(Point { id, pos, fixed: false });
        Ok(self.points.len() - 1)
    }

    /// The id of a curve that upstream is about to append, whatever prefix it gives.
    pub fn fresh(&mut self, _prefix: &str) -> Result<u32> {
        self.take_id(self.curves.len() < MAX_CURVES)
    }

    /// Adds a constraint. An extend has moved an end before it asks for one, and upstream has no
    /// test of its own there, so every point is looked at first.
    pub fn add_constraint(&mut self, kind: ConstraintKind, _name: Option<&str>) -> Result<String> {
        let all_in_range = self.points.iter().all(|point| in_range(point.pos));
        require(all_in_range, SketchError::OutOfRange)?;
        require(self.constraints.len() < MAX_CONSTRAINTS, SketchError::TableFull)?;
        self.constraints.push(Constraint { kind });
        Ok(String::new())
    }

    /// Takes curves out, with the points that only they used, and the constraints that name
    /// either. Records behind them move up.
    pub fn remove_curves(&mut self, places: &[usize]) {
        for place in places {
            let Curve { id, kind, .. } = self.curves[*place];
            let id_of = |point: usize| self.points[point].id;
            let ends = kind.ends().map_or([0, 0], |(a, b)| [id_of(a), id_of(b)]);
            self.removed = Some(Removed { id, ends });
        }
        let curves_going: Vec<bool> =
            (0..self.curves.len()).map(|place| places.contains(&place)).collect();
        let mut used_going = vec![false; self.points.len()];
        let mut used_staying = used_going.clone();
        for (curve, goes) in self.curves.iter().zip(&curves_going) {
            curve.kind.flag_points(if *goes { &mut used_going } else { &mut used_staying });
        }
        let points_going: Vec<bool> = used_going
            .iter()
            .zip(&used_staying)
            .map(|(going, staying)| *going && !staying)
            .collect();
        self.drop_records(&points_going, &curves_going);
    }

    fn drop_records(&mut self, points_going: &[bool], curves_going: &[bool]) {
        let (point, curve) = (places_after(points_going), places_after(curves_going));
        self.constraints.retain_mut(|constraint| {
            let (points, curves) = constraint.kind.names();
            let goes = points.iter().flatten().any(|p| points_going[*p])
                || curves.iter().flatten().any(|c| curves_going[*c]);
            if !goes {
                constraint.kind = constraint.kind.with_places(|p| point[p], |c| curve[c]);
            }
            !goes
        });
        retain_by_place(&mut self.curves, curves_going);
        retain_by_place(&mut self.points, points_going);
        for record in &mut self.curves {
            record.kind = record.kind.with_points(|p| point[p]);
        }
    }
}

/// Where each record stands once those that go are out.
fn places_after(going: &[bool]) -> Vec<usize> {
    let before = |place: &bool, count: &mut usize| {
        let at = *count;
        *count += usize::from(!*place);
        at
    };
    going.iter().scan(0, |count, goes| Some(before(goes, count))).collect()
}

fn retain_by_place<T>(table: &mut Vec<T>, going: &[bool]) {
    let mut going = going.iter();
    table.retain(|_| !going.next().expect("one flag a record"));
}

#[cfg(test)]
mod tests {
    use super::*;

    /// `points` points in a row and a line between each two neighbours named.
    fn sketch(points: usize, lines: &[(usize, usize)]) -> Sketch {
        let point =
            |at: usize| Point { id: at as u32 + 1, pos: Vec2::new(at as f64, 0.0), fixed: false };
        let curve = |(at, line): (usize, &(usize, usize))| Curve {
            id: 1000 + at as u32,
            kind: CurveKind::Line { a: line.0, b: line.1 },
            construction: false,
            reversed: false,
            link: None,
            centerline: false,
            fixed: false,
            infinite: false,
        };
        Sketch {
            points: (0..points).map(point).collect(),
            curves: lines.iter().enumerate().map(curve).collect(),
            constraints: Vec::new(),
            next_id: 2000,
            removed: None,
        }
    }

    #[test]
    fn an_addition_tests_ids_then_room_then_place() {
        let far = Vec2::new(2e6, 0.0);
        let mut full = sketch(MAX_POINTS, &[(0, 1); MAX_CURVES]);
        full.next_id = u32::MAX;
        assert_eq!(full.add_point(far, None), Err(SketchError::IdsUsedUp));
        assert_eq!(full.fresh("l"), Err(SketchError::IdsUsedUp));
        full.next_id = u32::MAX - 1;
        assert_eq!(full.add_point(far, None), Err(SketchError::TableFull));
        assert_eq!(full.fresh("l"), Err(SketchError::TableFull));
        full.points.pop();
        assert_eq!(full.add_point(far, None), Err(SketchError::OutOfRange));
        let nan = Vec2::new(f64::NAN, 0.0);
        assert_eq!(sketch(0, &[]).add_point(nan, None), Err(SketchError::OutOfRange));
        assert_eq!(sketch(3, &[]).add_point(Vec2::new(1e6, -1e6), None), Ok(3));
    }

    #[test]
    fn a_constraint_tests_places_before_room() {
        let kind = ConstraintKind::Coincident { p: 0, q: 1 };
        let mut full = sketch(2, &[]);
        full.constraints = vec![Constraint { kind }; MAX_CONSTRAINTS];
        assert_eq!(full.add_constraint(kind, None), Err(SketchError::TableFull));
        full.points[0].pos.x = f64::INFINITY;
        assert_eq!(full.add_constraint(kind, None), Err(SketchError::OutOfRange));
    }

    #[test]
    fn a_removed_curve_takes_its_own_points_and_their_constraints() {
        let mut sketch = sketch(5, &[(0, 1), (1, 2), (2, 3)]);
        let kinds = [
            ConstraintKind::Coincident { p: 1, q: 4 },
            ConstraintKind::Distance { p: 0, q: 4, value: 4.0 },
            ConstraintKind::Collinear { a: 0, b: 1 },
            ConstraintKind::Collinear { a: 1, b: 2 },
            ConstraintKind::PointOnCurve { p: 4, c: 2 },
        ];
        sketch.constraints = kinds.map(|kind| Constraint { kind }).to_vec();
        sketch.remove_curves(&[0]);
        let ids: Vec<u32> = sketch.points.iter().map(|point| point.id).collect();
        assert_eq!(ids, [2, 3, 4, 5], "the first point alone went");
        let kinds: Vec<ConstraintKind> = sketch.constraints.iter().map(|c| c.kind).collect();
        let left = [
            ConstraintKind::Coincident { p: 0, q: 3 },
            ConstraintKind::Collinear { a: 0, b: 1 },
            ConstraintKind::PointOnCurve { p: 3, c: 1 },
        ];
        assert_eq!(kinds, left);
        assert_eq!(sketch.curves[0].kind, CurveKind::Line { a: 0, b: 1 });
        assert_eq!(sketch.removed, Some(Removed { id: 1000, ends: [1, 2] }));
    }
}
