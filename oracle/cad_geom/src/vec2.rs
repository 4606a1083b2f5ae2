//! Plane vectors, and angles as turns of four quarters.

use std::ops::{Add, Div, Mul, Sub};

/// A whole turn, which stands wherever upstream has 2π.
pub const FULL_TURN: f64 = 4.0;

/// A vector shorter than this has no direction.
const SHORTEST: f64 = 1e-12;

#[derive(Clone, Copy, Debug, Default, PartialEq)]
pub struct Vec2 {
    pub x: f64,
    pub y: f64,
}

impl Vec2 {
    pub const fn new(x: f64, y: f64) -> Self {
        Vec2 { x, y }
    }

    pub fn dot(self, other: Vec2) -> f64 {
        self.x * other.x + self.y * other.y
    }

    pub fn cross(self, other: Vec2) -> f64 {
        self.x * other.y - self.y * other.x
    }

    pub fn len2(self) -> f64 {
        self.x * self.x + self.y * self.y
    }

    pub fn len(self) -> f64 {
        self.len2().sqrt()
    }

    pub fn dist(self, other: Vec2) -> f64 {
        (self - other).len()
    }

    /// Each coordinate over the length; none for a vector too short to have a direction.
    pub fn normalized(self) -> Option<Vec2> {
        let len = self.len();
        if len < SHORTEST {
            None
        } else {
            Some(self / len)
        }
    }

    /// A quarter turn to the left.
    pub fn left(self) -> Vec2 {
        Vec2::new(-self.y, self.x)
    }

    /// Upstream's name for the direction; here it is a turn.
    pub fn angle(self) -> f64 {
        turn(self.x, self.y)
    }

    pub fn is_finite(self) -> bool {
        self.x.is_finite() && self.y.is_finite()
    }
}

/// The direction of (x, y) as a number from 0 to below 4, rising with the angle: the quarter,
/// and within it the share that the later axis has of |x| + |y|.
pub fn turn(x: f64, y: f64) -> f64 {
    let s = x.abs() + y.abs();
    if s == 0.0 {
        return 0.0;
    }
    let turn = if x > 0.0 && y >= 0.0 {
        y / s
    } else if x <= 0.0 && y > 0.0 {
        1.0 + (-x) / s
    } else if x < 0.0 && y <= 0.0 {
        2.0 + (-y) / s
    } else {
        3.0 + x / s
    };
    // Just below the first axis the sum rounds up to the whole turn.
    if turn == FULL_TURN {
        0.0
    } else {
        turn
    }
}

impl Add for Vec2 {
    type Output = Vec2;
    fn add(self, other: Vec2) -> Vec2 {
        Vec2::new(self.x + other.x, self.y + other.y)
    }
}

impl Sub for Vec2 {
    type Output = Vec2;
    fn sub(self, other: Vec2) -> Vec2 {
        Vec2::new(self.x - other.x, self.y - other.y)
    }
}

impl Mul<f64> for Vec2 {
    type Output = Vec2;
    fn mul(self, factor: f64) -> Vec2 {
        Vec2::new(self.x * factor, self.y * factor)
    }
}

impl Div<f64> for Vec2 {
    type Output = Vec2;
    fn div(self, divisor: f64) -> Vec2 {
        Vec2::new(self.x / divisor, self.y / divisor)
    }
}

#[cfg(test)]
mod tests {
    use super::*;

    #[test]
    fn turns_of_the_axes_and_diagonals() {
        let table = [
            (1.0, 0.0, 0.0),
            (1.0, 1.0, 0.5),
            (0.0, 1.0, 1.0),
            (-1.0, 1.0, 1.5),
            (-1.0, 0.0, 2.0),
            (-1.0, -1.0, 2.5),
            (0.0, -1.0, 3.0),
            (1.0, -1.0, 3.5),
            (0.0, 0.0, 0.0),
            (-0.0, -0.0, 0.0),
        ];
        for (x, y, expected) in table {
            assert_eq!(turn(x, y).to_bits(), f64::to_bits(expected), "turn({x}, {y})");
        }
    }

    #[test]
    fn a_zero_below_the_first_axis_keeps_its_sign() {
        assert_eq!(turn(1.0, -0.0).to_bits(), (-0.0_f64).to_bits());
        assert_eq!(turn(-1.0, -0.0), 2.0);
        assert_eq!(turn(-0.0, 1.0), 1.0);
        assert_eq!(turn(-0.0, -1.0), 3.0);
    }

    #[test]
    fn a_whole_turn_counts_as_none() {
        assert_eq!(turn(1.0, -1e-300).to_bits(), 0);
        assert!(turn(1.0, -1e-15) < FULL_TURN);
    }

    #[test]
    fn short_vectors_have_no_direction() {
        assert_eq!(Vec2::new(1e-12, 0.0).normalized(), Some(Vec2::new(1.0, 0.0)));
        let shorter = f64::from_bits(1e-12_f64.to_bits() - 1);
        assert_eq!(Vec2::new(shorter, 0.0).normalized(), None);
        assert_eq!(Vec2::new(3.0, 4.0).normalized(), Some(Vec2::new(0.6, 0.8)));
    }
}
