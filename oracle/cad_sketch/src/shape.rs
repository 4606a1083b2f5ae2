//! The analytic shape of a curve: a line, or a round over some part of a circle.

use cad_geom::{Vec2, FULL_TURN};

#[derive(Clone, Copy, Debug, PartialEq)]
pub enum Shape {
    Line {
        a: Vec2,
        b: Vec2,
    },
    /// Start and sweep are turns.
    Round {
        c: Vec2,
        r: f64,
        start: f64,
        sweep: f64,
    },
}

impl Shape {
    pub fn circle(c: Vec2, r: f64) -> Shape {
        Shape::Round { c, r, start: 0.0, sweep: FULL_TURN }
    }

    /// The arc about `c` from `a` forward to the direction of `b`.
    pub fn arc(c: Vec2, a: Vec2, b: Vec2) -> Shape {
        let (r, start) = ((a - c).len(), (a - c).angle());
        let ahead = (b - c).angle() - start;
        let sweep = if ahead > 0.0 { ahead } else { ahead + FULL_TURN };
        Shape::Round { c, r, start, sweep }
    }

    /// Where `p` lies along the endless line or around the full circle.
    pub fn param(&self, p: Vec2) -> f64 {
        match *self {
            Shape::Line { a, b } => {
                let d = b - a;
                (p - a).dot(d) / d.dot(d).max(1e-30)
            }
            Shape::Round { c, start, .. } => {
                let ahead = (p - c).angle() - start;
                if ahead < 0.0 {
                    ahead + FULL_TURN
                } else {
                    ahead
                }
            }
        }
    }

    pub fn point(&self, t: f64) -> Vec2 {
        match *self {
            Shape::Line { a, b } => a + (b - a) * t,
            Shape::Round { c, r, start, .. } => {
                let ahead = start + t;
                let s = if ahead >= FULL_TURN { ahead - FULL_TURN } else { ahead };
                unit(s) * r + c
            }
        }
    }

    /// The nearest point of the endless line or full circle; for a centre the one at turn 0.
    pub fn project(&self, p: Vec2) -> Vec2 {
        match *self {
            Shape::Line { .. } => self.point(self.param(p)),
            Shape::Round { c, r, .. } => match (p - c).normalized() {
                Some(n) => c + n * r,
                None => c + Vec2::new(r, 0.0),
            },
        }
    }

    pub fn dist(&self, p: Vec2) -> f64 {
        p.dist(self.project(p))
    }

    pub fn range(&self) -> (f64, f64) {
        match *self {
            Shape::Line { .. } => (0.0, 1.0),
            Shape::Round { sweep, .. } => (0.0, sweep),
        }
    }

    pub fn is_full(&self) -> bool {
        matches!(*self, Shape::Round { sweep, .. } if sweep >= FULL_TURN - 1e-12)
    }
}

/// The unit vector at turn `s`: along the chord of its quarter, brought to length 1, then
/// turned left by whole quarters.
fn unit(s: f64) -> Vec2 {
    let quarter = s as u32;
    let f = s - f64::from(quarter);
    let h = ((1.0 - f) * (1.0 - f) + f * f).sqrt();
    let first = Vec2::new(1.0 - f, f) / h;
    (0..quarter).fold(first, |v, _| v.left())
}

#[cfg(test)]
mod tests {
    use super::*;

    const ORIGIN: Vec2 = Vec2::new(0.0, 0.0);

    fn sweep(shape: Shape) -> f64 {
        shape.range().1
    }

    #[test]
    fn an_arc_runs_forward_and_is_full_where_its_ends_meet() {
        let (right, top) = (Vec2::new(2.0, 0.0), Vec2::new(0.0, 2.0));
        assert_eq!(sweep(Shape::arc(ORIGIN, right, top)), 1.0);
        assert_eq!(sweep(Shape::arc(ORIGIN, top, right)), 3.0);
        assert_eq!(sweep(Shape::arc(ORIGIN, right, right)), 4.0);
    }

    #[test]
    fn full_begins_a_trillionth_before_the_whole_turn() {
        let round = |sweep| Shape::Round { c: ORIGIN, r: 1.0, start: 0.0, sweep };
        let least = 4.0 - 1e-12;
        assert!(round(least).is_full());
        assert!(!round(f64::from_bits(f64::to_bits(least) - 1)).is_full());
        assert!(!Shape::Line { a: ORIGIN, b: ORIGIN }.is_full());
    }

    #[test]
    fn points_of_a_circle_stand_on_its_axes() {
        let circle = Shape::circle(Vec2::new(1.0, 1.0), 2.0);
        let axes = [(3.0, 1.0), (1.0, 3.0), (-1.0, 1.0), (1.0, -1.0), (3.0, 1.0)];
        for (quarter, (x, y)) in axes.into_iter().enumerate() {
            assert_eq!(circle.point(quarter as f64), Vec2::new(x, y));
        }
        assert_eq!(circle.param(Vec2::new(1.0, -5.0)), 3.0);
    }

    #[test]
    fn a_parameter_can_round_up_to_the_whole_turn() {
        let start = f64::from_bits(1.0_f64.to_bits() - 1);
        let almost = Shape::Round { c: ORIGIN, r: 1.0, start, sweep: 4.0 };
        let just_before = start - f64::EPSILON / 2.0;
        let p = Vec2::new(1.0 - just_before, just_before);
        assert_eq!(almost.param(p), 4.0);
    }

    #[test]
    fn a_centre_projects_to_turn_zero() {
        let c = Vec2::new(1.0, -0.0);
        let projected = Shape::circle(c, 2.0).project(c);
        assert_eq!((projected.x, projected.y.to_bits()), (3.0, 0));
    }

    #[test]
    fn a_line_of_no_length_projects_to_its_place() {
        let a = Vec2::new(1.0, 2.0);
        let speck = Shape::Line { a, b: a };
        assert_eq!(speck.param(Vec2::new(5.0, 5.0)), 0.0);
        assert_eq!(speck.dist(Vec2::new(1.0, 5.0)), 3.0);
    }
}
