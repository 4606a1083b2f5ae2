//! Béziers and conics that meet the line along a frame at its origin: at once or flatly, twice,
//! touching, beside it by less than a rounding.

use super::frame::Frame;
use super::polynomials::times_linear;
use super::random::Random;
use super::scene::Scene;
use crate::drawing::*;

/// Adds an arch of any degree.
pub fn add_bezier(scene: &mut Scene, frame: &Frame) {
    let degree = scene.random.between(1, i64::from(MAX_DEGREE)) as u8;
    let n = usize::from(degree);
    let root = root(scene.random);
    let heights = heights(scene.random, n, root);
    let widths = widths(scene.random, n, root);
    let mut points = [0; SLOTS];
    for (slot, (along, across)) in points.iter_mut().zip(widths.iter().zip(&heights)) {
        *slot = scene.put(frame, *along, *across);
    }
    if scene.random.one_in(24) {
        points[n] = points[0];
    }
    scene.curve(CurveKind::Bezier { degree, points });
}

/// Where along an arch it is to meet the line.
fn root(random: &mut Random) -> f64 {
    let even = random.unit();
    let close = 1e-10 * random.pick(&[0.9, 1.1, 3.0, 5.0, 9.0]);
    random.weighted(&[
        (3, 0.5),
        (2, 0.25),
        (1, 0.0),
        (1, 1.0),
        (5, even),
        (1, close),
        (1, 1.0 - close),
    ])
}

/// Coefficients of an arch's height over the line, which vanish at the root.
fn heights(random: &mut Random, n: usize, root: f64) -> Vec<f64> {
    let size = height(random);
    let mut heights = match random.below(8) {
        // As flat as the degree allows.
        0 | 1 => power(n, n, root),
        2 => power(n, n.min(3), root),
        3 => power(n, n.min(2), root),
        4 => (0..=n).map(|_| random.unit() - 0.5).collect(),
        _ => several(random, n, root),
    };
    let largest = heights.iter().fold(0.0_f64, |largest, v| largest.max(v.abs()));
    let scale = if largest > 0.0 { size / largest } else { 0.0 };
    heights.iter_mut().for_each(|v| *v *= scale);
    shift(random, &mut heights, size);
    heights
}

/// Moves an arch by about what the search takes for nothing: all of it, an end, or its slope
/// there, so that a touch, an end or a knot may be lost.
fn shift(random: &mut Random, heights: &mut [f64], size: f64) {
    let by = random.near(2e-13 * size);
    let last = heights.len() - 1;
    match random.below(9) {
        0 | 1 => heights.iter_mut().for_each(|v| *v += by),
        2 => heights[0] = by,
        3 => heights[last] = by,
        4 => heights[1] = heights[0] + by,
        5 => heights[last - 1] = heights[last] + by,
        _ => {}
    }
}

fn height(random: &mut Random) -> f64 {
    let even = random.unit() * 5.0;
    let nothing = 1e-28 * random.pick(&[0.1, 0.5, 0.999, 1.0, 1.001, 2.0, 8.0, 100.0]);
    random.weighted(&[(4, 1.0), (3, 3.0), (6, even), (1, 1e3), (2, 8e5), (3, nothing), (1, 1e-9)])
}

/// The power of one factor, raised to a degree by factors that do not vanish within the arch.
fn power(n: usize, times: usize, root: f64) -> Vec<f64> {
    let mut product = vec![1.0];
    for place in 0..n {
        product = if place < times {
            times_linear(&product, -root, 1.0 - root)
        } else {
            times_linear(&product, 1.0, 1.5)
        };
    }
    product
}

/// Different roots: two near each other, at the ends, anywhere.
fn several(random: &mut Random, n: usize, root: f64) -> Vec<f64> {
    let mut product = times_linear(&[1.0], -root, 1.0 - root);
    for _ in 1..n {
        let near = root + random.near(1e-7);
        let even = random.unit();
        let other = random.pick(&[0.0, 1.0, near, even, even, -0.5, 1.5]);
        product = times_linear(&product, -other, 1.0 - other);
    }
    product
}

/// Positions along the line, 0 at the root: steady, upright, or to and fro.
fn widths(random: &mut Random, n: usize, root: f64) -> Vec<f64> {
    let even = random.unit() * 6.0;
    let thin = random.near(1e-7);
    let shares = [(5, 2.0), (2, even), (2, 0.0), (2, thin), (1, -3.0), (1, 7e5), (1, -5e4)];
    let width = random.weighted(&shares);
    let wave = if random.one_in(4) { random.unit() * 3.0 } else { 0.0 };
    let at = |place: usize| width * (place as f64 / n as f64 - root) + wave * (place % 2) as f64;
    (0..=n).map(at).collect()
}

/// Adds a conic from flat to sharp.
pub fn add_conic(scene: &mut Scene, frame: &Frame) {
    const RHO: [f64; 8] =
        [5e-324, 1e-300, 1e-6, 0.1, 0.9, 0.999, 1.0 - 1e-9, 1.0 - f64::EPSILON / 2.0];
    let even = scene.random.unit().max(1e-9);
    let edge = scene.random.pick(&RHO);
    let rho = scene.random.weighted(&[(3, 0.5), (1, 0.414_213_562), (6, even), (3, edge)]);
    let w = rho / (1.0 - rho);
    let root = root(scene.random);
    let heights = heights(scene.random, 2, root);
    let widths = widths(scene.random, 2, root);
    // The search sees the apex's height times its weight.
    let apex_height = (heights[1] / w).clamp(-1e5, 1e5);
    let apex_height = if scene.random.one_in(4) { heights[1] } else { apex_height };
    let positions = [(widths[0], heights[0]), (widths[1], apex_height), (widths[2], heights[2])];
    let [a, apex, b] = positions.map(|(along, across)| scene.put(frame, along, across));
    scene.curve(CurveKind::Conic { a, apex, b, rho });
}

/// Adds an arch that leaves the line and comes back beside where it left it, so far out that both
/// ends are taken for hits: one curve met twice at one distance.
pub fn add_loop(scene: &mut Scene, frame: &Frame) {
    let above =
        scene.random.pick(&[0.0, 0.0, 0.3e-7, 0.5e-7, 0.51e-7, 0.6e-7, 0.9e-7, 1e-7, 1.1e-7]);
    let apart = scene.random.near(1e-7);
    let below = if scene.random.one_in(4) { above } else { -above };
    let rise = scene.random.pick(&[4e5, 9e5, -8e5]);
    let inner = 1 + scene.random.below(3);
    let mut positions = vec![(0.0, above)];
    positions.extend((0..inner).map(|at| (at as f64 * 10.0, rise)));
    positions.push((apart, below));
    let mut points = [0; SLOTS];
    for (slot, (along, across)) in points.iter_mut().zip(&positions) {
        *slot = scene.put(frame, *along, *across);
    }
    scene.curve(CurveKind::Bezier { degree: positions.len() as u8 - 1, points });
}
