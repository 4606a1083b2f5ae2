//! Coefficient lists for the root search, with budgets up to and short of what it spends.

use super::random::Random;

/// A search: Bernstein coefficients and the budget it may spend.
#[derive(Clone, Debug, PartialEq)]
pub struct Polynomial {
    pub coefficients: Vec<f64>,
    pub budget: usize,
}

pub fn polynomial(random: &mut Random) -> Polynomial {
    let coefficients = coefficients(random);
    let budget = match random.below(6) {
        0 => random.below(200),
        1 => random.pick(&[0, 1, 46, 47, 48, 64, 94]),
        _ => AMPLE,
    };
    Polynomial { coefficients, budget }
}

/// More than any search spends.
pub const AMPLE: usize = 1_000_000;

/// Budgets about what a search spends, one of them anywhere below.
pub fn budgets(random: &mut Random, spent: usize) -> [usize; 4] {
    [AMPLE, spent, spent.saturating_sub(1), random.below(spent + 2)]
}

pub fn coefficients(random: &mut Random) -> Vec<f64> {
    match random.below(20) {
        0 => vec![1.0; random.pick(&[0, 16, 17, 20])],
        1 => any_bits(random),
        2 => huge(random),
        3 => tiny(random),
        4..=6 => factored(random),
        7 => repeated(random),
        8..=10 => clustered(random),
        11..=13 => grazing(random),
        14 => scaled(random),
        15 => spoilt(random),
        _ => plain(random),
    }
}

fn length(random: &mut Random) -> usize {
    let most = random.pick(&[8, 8, 8, 15]);
    1 + random.below(most)
}

fn plain(random: &mut Random) -> Vec<f64> {
    (0..length(random))
        .map(|_| if random.one_in(2) { random.grid() } else { random.unit() - 0.5 })
        .collect()
}

fn any_bits(random: &mut Random) -> Vec<f64> {
    (0..length(random)).map(|_| f64::from_bits(random.float_bits())).collect()
}

/// Coefficients whose differences overflow, in the list itself or on the way down.
fn huge(random: &mut Random) -> Vec<f64> {
    const SIZES: [f64; 6] = [f64::MAX, f64::MIN, 1e308, -1e308, 1e300, -1e307];
    (0..length(random)).map(|_| random.pick(&SIZES)).collect()
}

/// Coefficients about the size that counts as nothing.
fn tiny(random: &mut Random) -> Vec<f64> {
    const SIZES: [f64; 8] = [1e-28, -1e-28, 0.999e-28, 1.001e-28, 1e-29, -0.0, 0.0, 5e-324];
    (0..length(random)).map(|_| random.pick(&SIZES)).collect()
}

/// The product of linear factors, roots meeting, touching and lying near the ends.
fn factored(random: &mut Random) -> Vec<f64> {
    let mut product = vec![1.0];
    for _ in 0..1 + random.below(5) {
        let even = random.unit();
        let near = random.pick(&[1e-13, 5e-11, 3e-10, 1e-9]);
        let root = random.pick(&[0.0, 1.0, 0.5, 0.25, 0.5 + near, near, 1.0 - near, -0.5, even]);
        for _ in 0..random.pick(&[1, 1, 2]) {
            product = times_root(&product, root);
        }
    }
    product
}

/// Several roots in a row, so near each other that some count as one, and a few anywhere.
fn clustered(random: &mut Random) -> Vec<f64> {
    const GAPS: [f64; 8] = [3e-14, 1.1e-13, 6e-11, 9e-11, 1.1e-10, 3e-10, 1e-8, 1e-4];
    let (start, gap) = (pick_root(random, &[0.0, 0.25, 0.5]), random.pick(&GAPS));
    let mut product = vec![1.0];
    for place in 0..2 + random.below(6) {
        product = times_root(&product, start + gap * place as f64);
    }
    for _ in 0..random.below(3) {
        product = times_root(&product, random.unit());
    }
    raised(random, product)
}

/// A double root lifted or lowered by about as much as still counts as zero.
fn grazing(random: &mut Random) -> Vec<f64> {
    const SHARES: [f64; 10] = [0.0, 0.1, 0.9, 0.999, 1.0, 1.001, 1.1, 10.0, 1e3, 1e6];
    let root = pick_root(random, &[0.5, 0.25, 1.0 / 3.0]);
    let mut product = times_root(&times_root(&[1.0], root), root);
    for _ in 0..random.below(4) {
        product = times_root(&product, random.unit() * 3.0 - 1.0);
    }
    let mut product = raised(random, product);
    let scale = product.iter().fold(0.0_f64, |most, value| most.max(value.abs()));
    let lift = scale * 2e-13 * random.pick(&SHARES) * random.pick(&[1.0, -1.0]);
    product.iter_mut().for_each(|value| *value += lift);
    product
}

/// Sizes far from 1, all alike.
fn scaled(random: &mut Random) -> Vec<f64> {
    let power = random.between(-320, 305) as i32;
    let size = 10.0_f64.powi(random.pick(&[power, power / 10]));
    let all = if random.one_in(2) { plain(random) } else { factored(random) };
    all.iter().map(|value| value * size).collect()
}

/// A good list but for one coefficient.
fn spoilt(random: &mut Random) -> Vec<f64> {
    const OTHERS: [f64; 6] = [f64::NAN, f64::INFINITY, f64::NEG_INFINITY, f64::MAX, -0.0, 5e-324];
    let mut all = if random.one_in(2) { plain(random) } else { clustered(random) };
    let at = random.below(all.len());
    all[at] = random.pick(&OTHERS);
    all
}

/// One of the given roots, or any number from 0 to below 1.
fn pick_root(random: &mut Random, roots: &[f64]) -> f64 {
    if random.one_in(3) {
        random.unit()
    } else {
        random.pick(roots)
    }
}

/// The same polynomial with more coefficients, up to 15.
fn raised(random: &mut Random, mut c: Vec<f64>) -> Vec<f64> {
    let most = random.pick(&[c.len(), c.len() + 1, 8, 15]).min(15);
    while c.len() < most {
        c = times_linear(&c, 1.0, 1.0);
    }
    c
}

fn times_root(c: &[f64], root: f64) -> Vec<f64> {
    times_linear(c, -root, 1.0 - root)
}

/// One value throughout, or two in turn: no slope, or as many changes of sign as there can be.
fn repeated(random: &mut Random) -> Vec<f64> {
    let (even, odd) = (random.grid(), random.grid());
    (0..length(random)).map(|place| if place % 2 == 0 { even } else { odd }).collect()
}

/// A Bernstein polynomial times the linear one with coefficients `a`, `b`.
pub fn times_linear(c: &[f64], a: f64, b: f64) -> Vec<f64> {
    let degree = c.len() as f64;
    (0..=c.len())
        .map(|k| {
            let share = k as f64 / degree;
            let from_left = c.get(k).map_or(0.0, |v| v * a * (1.0 - share));
            let from_right = if k > 0 { c[k - 1] * b * share } else { 0.0 };
            from_left + from_right
        })
        .collect()
}
