//! Patterns of floats to take roots of: every exponent, and where a root nearly falls on a float
//! or halfway between two.

use super::numbers::EDGE_FLOATS;
use super::random::Random;

pub const MANTISSA_BITS: u32 = 52;
pub const MANTISSA: u64 = (1 << MANTISSA_BITS) - 1;
/// The exponent field of 1.
pub const BIAS: u64 = 1023;
const HIDDEN: u64 = 1 << MANTISSA_BITS;
const SIGN: u64 = 1 << 63;

/// Any pattern; a NaN's and an infinity's too.
pub fn pattern(random: &mut Random) -> u64 {
    let pattern = match random.below(16) {
        0..=4 => with_any_exponent(random),
        5..=7 => near_square(random),
        8..=11 => near_halfway(random),
        12 | 13 => subnormal(random),
        14 => whole_square(random),
        _ => {
            let edge = random.pick(&EDGE_FLOATS);
            nudged(random, edge)
        }
    };
    if random.one_in(24) {
        pattern ^ SIGN
    } else {
        pattern
    }
}

fn with_any_exponent(random: &mut Random) -> u64 {
    let exponent = random.below(2048) as u64;
    (exponent << MANTISSA_BITS) | mantissa(random)
}

/// Even, or with long runs of one digit.
fn mantissa(random: &mut Random) -> u64 {
    let bits = random.bits() & MANTISSA;
    let runs = MANTISSA >> random.below(MANTISSA_BITS as usize + 1);
    random.pick(&[bits, bits, bits & runs, bits | runs, runs, MANTISSA ^ runs])
}

/// The float nearest to the square of another, or one of its neighbours.
fn near_square(random: &mut Random) -> u64 {
    let short = MANTISSA << random.below(MANTISSA_BITS as usize);
    let exponent = (BIAS / 2 + random.below(BIAS as usize) as u64) << MANTISSA_BITS;
    let root = f64::from_bits(exponent | (mantissa(random) & short));
    nudged(random, (root * root).to_bits())
}

/// A float next to the square of what lies halfway between two others.
fn near_halfway(random: &mut Random) -> u64 {
    let twice = 2 * u128::from(HIDDEN | mantissa(random)) + 1;
    let square = twice * twice;
    let shift = 128 - square.leading_zeros() - (MANTISSA_BITS + 1);
    let top = (square >> shift) as u64 & MANTISSA;
    // Of the exponent only whether it is even matters to the mantissa: that of the square.
    let odd = u64::from(shift & 1);
    let exponent = 2 * random.below(1022) as u64 + odd + 1;
    nudged(random, (exponent << MANTISSA_BITS) | top)
}

fn subnormal(random: &mut Random) -> u64 {
    mantissa(random) >> random.below(MANTISSA_BITS as usize + 1)
}

/// The square of a whole number, or next to it.
fn whole_square(random: &mut Random) -> u64 {
    let root = random.bits() >> (32 + random.below(32));
    nudged(random, ((root * root) as f64).to_bits())
}

/// The pattern itself or one up to two steps away.
fn nudged(random: &mut Random, pattern: u64) -> u64 {
    pattern.wrapping_add_signed(random.between(-2, 2))
}
