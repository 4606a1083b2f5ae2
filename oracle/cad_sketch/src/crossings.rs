//! Where endless lines and full circles cross, in a fixed order.

use crate::Shape;
use cad_geom::Vec2;

pub fn intersections(first: &Shape, second: &Shape) -> Vec<Vec2> {
    match (*first, *second) {
        (Shape::Line { a, b }, Shape::Line { a: c, b: d }) => {
            line_line(a, b - a, c, d - c).into_iter().collect()
        }
        (Shape::Line { a, b }, Shape::Round { c, r, .. })
        | (Shape::Round { c, r, .. }, Shape::Line { a, b }) => line_round(a, b, c, r),
        (Shape::Round { c: c1, r: r1, .. }, Shape::Round { c: c2, r: r2, .. }) => {
            round_round(c1, r1, c2, r2)
        }
    }
}

fn line_line(a: Vec2, r: Vec2, c: Vec2, s: Vec2) -> Option<Vec2> {
    let across = r.cross(s);
    if across.abs() < 1e-15 {
        return None;
    }
    Some(a + r * ((c - a).cross(s) / across))
}

/// Against the line's direction first.
fn line_round(a: Vec2, b: Vec2, c: Vec2, r: f64) -> Vec<Vec2> {
    let Some(d) = (b - a).normalized() else {
        return Vec::new();
    };
    let m = a + d * (c - a).dot(d);
    let h = r * r - (m - c).dot(m - c);
    around(m, h, |reach| [m - d * reach, m + d * reach])
}

/// To the left of the way from the first centre to the second first.
fn round_round(c1: Vec2, r1: f64, c2: Vec2, r2: f64) -> Vec<Vec2> {
    let e = c2 - c1;
    let distance = e.len();
    if distance < 1e-12 {
        return Vec::new();
    }
    let g = (distance * distance + r1 * r1 - r2 * r2) / (2.0 * distance);
    let h = r1 * r1 - g * g;
    let m = c1 + e * (g / distance);
    let n = e.left() / distance;
    around(m, h, |reach| [m + n * reach, m - n * reach])
}

/// None, the touch at `m`, or two crossings at a reach of √h from it.
fn around(m: Vec2, h: f64, both: impl FnOnce(f64) -> [Vec2; 2]) -> Vec<Vec2> {
    if h < 0.0 {
        Vec::new()
    } else if h == 0.0 {
        vec![m]
    } else {
        both(h.sqrt()).to_vec()
    }
}

#[cfg(test)]
mod tests {
    use super::*;

    fn line(ax: f64, ay: f64, bx: f64, by: f64) -> Shape {
        Shape::Line { a: Vec2::new(ax, ay), b: Vec2::new(bx, by) }
    }

    fn circle(x: f64, y: f64, r: f64) -> Shape {
        Shape::circle(Vec2::new(x, y), r)
    }

    fn crossings(first: Shape, second: Shape) -> Vec<(f64, f64)> {
        intersections(&first, &second).into_iter().map(|p| (p.x, p.y)).collect()
    }

    #[test]
    fn two_lines() {
        assert_eq!(crossings(line(0., 0., 4., 0.), line(1., -1., 1., 1.)), [(1.0, 0.0)]);
        assert_eq!(crossings(line(0., 0., 4., 0.), line(9., 5., 9., 6.)), [(9.0, 0.0)]);
        assert_eq!(crossings(line(0., 0., 4., 0.), line(0., 1., 4., 1.)), []);
    }

    #[test]
    fn lines_count_as_parallel_below_a_fixed_area() {
        let slope = |s: f64| line(0., 0., 1., s);
        assert_eq!(crossings(line(0., 0., 1., 0.), slope(1e-15)).len(), 1);
        let less = f64::from_bits(1e-15_f64.to_bits() - 1);
        assert_eq!(crossings(line(0., 0., 1., 0.), slope(less)).len(), 0);
    }

    #[test]
    fn line_and_round_in_the_lines_direction() {
        let (level, wheel) = (line(0., 0., 1., 0.), circle(0., 3., 5.));
        assert_eq!(crossings(level, wheel), [(-4.0, 0.0), (4.0, 0.0)]);
        assert_eq!(crossings(wheel, level), [(-4.0, 0.0), (4.0, 0.0)]);
        assert_eq!(crossings(line(1., 0., 0., 0.), wheel), [(4.0, 0.0), (-4.0, 0.0)]);
        assert_eq!(crossings(level, circle(2., 1., 1.)), [(2.0, 0.0)]);
        assert_eq!(crossings(level, circle(2., 2., 1.)), []);
        assert_eq!(crossings(line(0., 0., 1e-13, 0.), wheel), []);
    }

    #[test]
    fn two_rounds_from_the_left_of_the_first() {
        let (a, b) = (circle(0., 0., 5.), circle(8., 0., 5.));
        assert_eq!(crossings(a, b), [(4.0, 3.0), (4.0, -3.0)]);
        assert_eq!(crossings(b, a), [(4.0, -3.0), (4.0, 3.0)]);
        assert_eq!(crossings(a, circle(7., 0., 2.)), [(5.0, 0.0)]);
        assert_eq!(crossings(a, circle(9., 0., 2.)), []);
        assert_eq!(crossings(a, circle(1e-13, 0., 5.)), []);
    }
}
