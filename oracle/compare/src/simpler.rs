//! Shrinking of numbers: towards 0 and 1, few digits and no sign; of lists towards fewer of them.

use oracle::generate::patterns::{BIAS, MANTISSA, MANTISSA_BITS};

/// Takes each simpler number that keeps the difference, one number after the other, until none does.
pub fn numbers<const N: usize>(
    mut numbers: [f64; N],
    differs: impl Fn(&[f64; N]) -> bool,
) -> [f64; N] {
    loop {
        let mut any_kept = false;
        for at in 0..N {
            let held = numbers[at];
            let kept = simpler(held).into_iter().find(|number| {
                numbers[at] = *number;
                differs(&numbers)
            });
            numbers[at] = kept.unwrap_or(held);
            any_kept |= kept.is_some();
        }
        if !any_kept {
            return numbers;
        }
    }
}

/// Leaves out each number that the difference does not need, and makes the others simpler.
pub fn list(mut list: Vec<f64>, differs: impl Fn(&[f64]) -> bool) -> Vec<f64> {
    let mut at = 0;
    while at < list.len() {
        let mut fewer = list.clone();
        fewer.remove(at);
        if differs(&fewer) {
            list = fewer;
        } else {
            at += 1;
        }
    }
    for at in 0..list.len() {
        let others = list.clone();
        [list[at]] = numbers([list[at]], |[number]| {
            let mut changed = others.clone();
            changed[at] = *number;
            differs(&changed)
        });
    }
    list
}

/// Numbers like this one but of less weight: of fewer digits, nearer to 1 in size, or positive.
fn simpler(number: f64) -> Vec<f64> {
    let bits = number.to_bits();
    let (exponent, rest) = ((bits >> MANTISSA_BITS) & 0x7ff, bits & !(0x7ff << MANTISSA_BITS));
    let digits = [0, 1, 2, 4, 8, 16, 32].map(|kept| bits & !(MANTISSA >> kept));
    let sizes = [(exponent + BIAS) / 2, (exponent + BIAS).div_ceil(2)]
        .map(|nearer| (nearer << MANTISSA_BITS) | rest);
    let few = [0.0, 1.0, -number, f64::from_bits(bits & bits.saturating_sub(1))];
    let all = digits.into_iter().chain(sizes).map(f64::from_bits);
    few.into_iter().chain(all).filter(|other| weight(*other) < weight(number)).collect()
}

fn weight(number: f64) -> u64 {
    let bits = number.to_bits();
    let digits = u64::from(MANTISSA_BITS - (bits | 1 << MANTISSA_BITS).trailing_zeros());
    let size = ((bits >> MANTISSA_BITS) & 0x7ff).abs_diff(BIAS);
    let sign = bits >> 63;
    if bits << 1 == 0 {
        sign
    } else {
        2 + 2 * digits + size + sign
    }
}
