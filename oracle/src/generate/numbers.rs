//! Numbers that lie where tests and tolerances decide.

use super::random::Random;
use crate::drawing::{MAX_COORDINATE, MAX_VALUE};

/// The tolerances of the edits: coincidence, tie, parameter at ends, crossing, length.
const TOLERANCES: [f64; 6] = [1e-6, 1e-7, 1e-9, 1e-10, 1e-12, 1e-15];
const FACTORS: [f64; 7] = [0.5, 0.999, 1.0, 1.001, 2.0, 10.0, 100.0];

impl Random {
    /// A coordinate on a small grid, so that ends, crossings and tangencies fall together.
    pub fn grid(&mut self) -> f64 {
        let step = self.pick(&[1.0, 1.0, 1.0, 0.5, 0.25]);
        self.between(-12, 12) as f64 * step
    }

    /// A signed distance near one of the tolerances.
    pub fn small_offset(&mut self) -> f64 {
        let size = self.pick(&TOLERANCES) * self.pick(&FACTORS);
        if self.one_in(2) {
            size
        } else {
            -size
        }
    }

    /// Mostly 0, else a small offset.
    pub fn jitter(&mut self) -> f64 {
        if self.one_in(6) {
            self.small_offset()
        } else {
            0.0
        }
    }

    /// As often a small offset as 0.
    pub fn maybe_small_offset(&mut self) -> f64 {
        if self.one_in(2) {
            self.small_offset()
        } else {
            0.0
        }
    }

    /// 0, or a signed distance about one tolerance: most often a rounding from it.
    pub fn near(&mut self, tolerance: f64) -> f64 {
        let edge = self.nudged(tolerance);
        let about = tolerance * self.pick(&[0.5, 0.9, 0.999, 1.0, 1.001, 1.1, 2.0]);
        let size = self.weighted(&[(3, 0.0), (3, edge), (4, about)]);
        if self.one_in(2) {
            size
        } else {
            -size
        }
    }

    /// The number itself or one up to three floats away.
    pub fn nudged(&mut self, number: f64) -> f64 {
        f64::from_bits(number.to_bits().saturating_add_signed(self.between(-3, 3)))
    }

    /// A coordinate that an image may hold.
    pub fn coordinate(&mut self) -> f64 {
        match self.below(40) {
            0 => -0.0,
            1 => self.pick(&[5e-324, -1e-310, 1e-160, -1e-300]),
            2 => self.pick(&[MAX_COORDINATE, -MAX_COORDINATE, below(MAX_COORDINATE)]),
            3 => (self.unit() - 0.5) * 2.0 * MAX_COORDINATE,
            4..=7 => (self.unit() - 0.5) * 24.0,
            _ => self.grid() + self.jitter(),
        }
    }

    /// Any float bits, with those at the edges of what fields allow favoured.
    pub fn float_bits(&mut self) -> u64 {
        match self.below(4) {
            0 => self.bits(),
            1 => self.grid().to_bits(),
            _ => self.pick(&EDGE_FLOATS),
        }
    }
}

const fn below(value: f64) -> f64 {
    f64::from_bits(value.to_bits() - 1)
}

const fn above(value: f64) -> f64 {
    f64::from_bits(value.to_bits() + 1)
}

/// Bits next to and at every limit that some float field has, and the special values.
pub const EDGE_FLOATS: [u64; 36] = [
    0,
    1 << 63,
    1,
    (1 << 63) | 1,
    0x000f_ffff_ffff_ffff,
    0x0010_0000_0000_0000,
    f64::INFINITY.to_bits(),
    f64::NEG_INFINITY.to_bits(),
    f64::MAX.to_bits(),
    f64::MIN.to_bits(),
    0x7ff0_0000_0000_0001,
    0x7ff8_0000_0000_0000,
    0xfff8_0000_0000_0001,
    0xffff_ffff_ffff_ffff,
    MAX_COORDINATE.to_bits(),
    below(MAX_COORDINATE).to_bits(),
    above(MAX_COORDINATE).to_bits(),
    (-MAX_COORDINATE).to_bits(),
    below(-MAX_COORDINATE).to_bits(),
    above(-MAX_COORDINATE).to_bits(),
    1e-6_f64.to_bits(),
    below(1e-6).to_bits(),
    above(1e-6).to_bits(),
    (-1e-6_f64).to_bits(),
    1.0_f64.to_bits(),
    below(1.0).to_bits(),
    above(1.0).to_bits(),
    (-1.0_f64).to_bits(),
    0.5_f64.to_bits(),
    (-0.5_f64).to_bits(),
    MAX_VALUE.to_bits(),
    below(MAX_VALUE).to_bits(),
    above(MAX_VALUE).to_bits(),
    (-MAX_VALUE).to_bits(),
    4.0_f64.to_bits(),
    1e300_f64.to_bits(),
];
