//! Lists of numbers of any length, finite throughout or with numbers that are not.

use super::patterns::pattern;
use super::random::Random;

/// The longest list.
pub const LONGEST: usize = 40;

/// One to three numbers that are not finite stand in half of the lists, anywhere.
pub fn list(random: &mut Random) -> Vec<f64> {
    let mut numbers = finite(random);
    if !numbers.is_empty() && random.one_in(2) {
        for _ in 0..1 + random.below(3) {
            let at = random.below(numbers.len());
            numbers[at] = not_finite(random);
        }
    }
    numbers
}

fn finite(random: &mut Random) -> Vec<f64> {
    let number = match random.below(6) {
        0 => zero,
        1 => subnormal,
        2 => any,
        3 => extreme,
        4 => grid,
        _ => unit,
    };
    (0..random.below(LONGEST + 1)).map(|_| number(random)).collect()
}

fn zero(random: &mut Random) -> f64 {
    random.pick(&[0.0, -0.0])
}

fn subnormal(random: &mut Random) -> f64 {
    signed(random, |random| f64::from_bits(random.bits() >> (12 + random.below(52))))
}

/// Of any exponent.
fn any(random: &mut Random) -> f64 {
    let number = f64::from_bits(pattern(random));
    signed(random, |_| if number.is_finite() { number } else { f64::MAX })
}

/// Far apart in size, and next to each other at the limit.
fn extreme(random: &mut Random) -> f64 {
    const SIZES: [f64; 6] = [f64::MAX, 1.797_693_134_862_315_5e308, 1e300, 1.0, 5e-324, 0.0];
    signed(random, |random| random.pick(&SIZES))
}

/// Few sizes, so that several are the largest.
fn grid(random: &mut Random) -> f64 {
    random.grid()
}

fn unit(random: &mut Random) -> f64 {
    signed(random, Random::unit)
}

fn signed(random: &mut Random, magnitude: impl Fn(&mut Random) -> f64) -> f64 {
    let number = magnitude(random);
    if random.one_in(2) {
        -number
    } else {
        number
    }
}

/// A quiet or a signalling NaN of either sign, or an infinity.
fn not_finite(random: &mut Random) -> f64 {
    const PATTERNS: [u64; 6] = [
        0x7ff8_0000_0000_0000,
        0xfff8_0000_0000_0001,
        0x7ff0_0000_0000_0001,
        0xffff_ffff_ffff_ffff,
        0x7ff0_0000_0000_0000,
        0xfff0_0000_0000_0000,
    ];
    f64::from_bits(random.pick(&PATTERNS))
}
