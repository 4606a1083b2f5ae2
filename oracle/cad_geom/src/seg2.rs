//! Exact curve pieces and the points on them.

use crate::Vec2;

/// Upstream names five kinds of piece. A Bézier keeps its points in the first `n + 1` slots.
#[derive(Clone, Copy, Debug, PartialEq)]
pub enum Seg2 {
    Line { a: Vec2, b: Vec2 },
    Arc { center: Vec2, radius: f64, start: f64, sweep: f64 },
    Cubic { p0: Vec2, p1: Vec2, p2: Vec2, p3: Vec2 },
    Conic { a: Vec2, apex: Vec2, b: Vec2, w: f64 },
    Bezier { n: u8, p: [Vec2; 8] },
}

impl Seg2 {
    /// The point at parameter `t` of a freeform piece. The edits ask it of no other.
    pub fn point_at(&self, t: f64) -> Vec2 {
        match self {
            Seg2::Cubic { p0, p1, p2, p3 } => polynomial_point(&[*p0, *p1, *p2, *p3], t),
            Seg2::Bezier { n, p } => polynomial_point(&p[..=usize::from(*n)], t),
            Seg2::Conic { a, apex, b, w } => conic_point([*a, *apex, *b], *w, t),
            Seg2::Line { .. } | Seg2::Arc { .. } => {
                unreachable!("lines and arcs are met by crossings, not by parameters")
            }
        }
    }
}

/// A Bernstein polynomial at `t`, by repeated interpolation between neighbours.
pub fn evaluate(coefficients: &[f64], t: f64) -> f64 {
    let mut values = [0.0; 15];
    values[..coefficients.len()].copy_from_slice(coefficients);
    for n in (1..coefficients.len()).rev() {
        for i in 0..n {
            values[i] = values[i] * (1.0 - t) + values[i + 1] * t;
        }
    }
    values[0]
}

fn polynomial_point(points: &[Vec2], t: f64) -> Vec2 {
    let (mut x, mut y) = ([0.0; 8], [0.0; 8]);
    for (at, point) in points.iter().enumerate() {
        (x[at], y[at]) = (point.x, point.y);
    }
    Vec2::new(evaluate(&x[..points.len()], t), evaluate(&y[..points.len()], t))
}

/// Weighted coordinates over weights, both at `t`.
fn conic_point(points: [Vec2; 3], w: f64, t: f64) -> Vec2 {
    let weights = [1.0, w, 1.0];
    let weighted = |coordinate: fn(Vec2) -> f64| {
        let products: [f64; 3] = std::array::from_fn(|i| coordinate(points[i]) * weights[i]);
        evaluate(&products, t)
    };
    let weight = evaluate(&weights, t);
    Vec2::new(weighted(|p| p.x) / weight, weighted(|p| p.y) / weight)
}

#[cfg(test)]
mod tests {
    use super::*;

    #[test]
    fn evaluation_interpolates_its_ends() {
        assert_eq!(evaluate(&[3.0, -2.0, 7.0], 0.0), 3.0);
        assert_eq!(evaluate(&[3.0, -2.0, 7.0], 1.0), 7.0);
        assert_eq!(evaluate(&[1.0, -1.0, 1.0], 0.5), 0.0);
        assert_eq!(evaluate(&[5.0], 0.25), 5.0);
    }

    #[test]
    fn a_conic_of_weight_one_is_a_parabola() {
        let [a, apex, b] = [Vec2::new(0.0, 0.0), Vec2::new(1.0, 2.0), Vec2::new(2.0, 0.0)];
        let mut p = [Vec2::default(); 8];
        p[..3].copy_from_slice(&[a, apex, b]);
        for t in [0.0, 0.25, 0.5, 1.0] {
            let conic = Seg2::Conic { a, apex, b, w: 1.0 }.point_at(t);
            assert_eq!(conic, Seg2::Bezier { n: 2, p }.point_at(t));
        }
    }
}
