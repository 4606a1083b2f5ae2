//! Marks: those that a host gives, and those that come in another desk's messages.

use super::random::Random;
use crate::message::{Mark, MARK_SIZE};

/// How a message's mark differs from the wall's own: the first case that holds.
#[derive(Clone, Copy, Debug, PartialEq, Eq, PartialOrd, Ord)]
pub enum Difference {
    None,
    OneBit,
    ByOne,
    OneByte,
    /// The first four bytes alone are others.
    HighHalf,
    /// The last four bytes alone are others.
    LowHalf,
    Swapped,
    Far,
}

impl Difference {
    /// Those of two marks that are near each other.
    pub const NEAR: [Difference; 6] = [
        Difference::OneBit,
        Difference::ByOne,
        Difference::OneByte,
        Difference::HighHalf,
        Difference::LowHalf,
        Difference::Swapped,
    ];

    pub fn between(own: Mark, other: Mark) -> Difference {
        if own == other {
            return Difference::None;
        }
        let near = Difference::NEAR.into_iter().find(|difference| difference.holds(own, other));
        near.unwrap_or(Difference::Far)
    }

    /// Whether two marks that are not the same differ so.
    fn holds(self, own: Mark, other: Mark) -> bool {
        let changed = own ^ other;
        match self {
            Difference::None => false,
            Difference::OneBit => changed.is_power_of_two(),
            Difference::ByOne => [own.wrapping_add(1), own.wrapping_sub(1)].contains(&other),
            Difference::OneByte => {
                changed.to_be_bytes().iter().filter(|byte| **byte != 0).count() == 1
            }
            Difference::HighHalf => changed as u32 == 0,
            Difference::LowHalf => changed >> 32 == 0,
            Difference::Swapped => own.swap_bytes() == other,
            Difference::Far => true,
        }
    }

    /// A mark that differs so; by chance it may differ less.
    fn apply(self, random: &mut Random, own: Mark) -> Mark {
        match self {
            Difference::None => own,
            Difference::OneBit => own ^ 1 << random.below(Mark::BITS as usize),
            Difference::ByOne => random.pick(&[own.wrapping_add(1), own.wrapping_sub(1)]),
            Difference::OneByte => {
                own ^ (1 + random.below(255) as Mark) << (8 * random.below(MARK_SIZE))
            }
            Difference::HighHalf => own ^ random.bits() << 32,
            Difference::LowHalf => own ^ random.bits() >> 32,
            Difference::Swapped => own.swap_bytes(),
            Difference::Far => mark(random),
        }
    }

    pub fn name(self) -> &'static str {
        match self {
            Difference::None => "own",
            Difference::OneBit => "one bit",
            Difference::ByOne => "by one",
            Difference::OneByte => "one byte",
            Difference::HighHalf => "high half",
            Difference::LowHalf => "low half",
            Difference::Swapped => "swapped",
            Difference::Far => "far",
        }
    }
}

/// A mark that a host may give.
pub fn mark(random: &mut Random) -> Mark {
    match random.below(8) {
        0 => 0,
        1 => Mark::MAX,
        2 => random.pick(&[1 << 32, u32::MAX.into(), 1 << 63]),
        3 => 1 + random.below(9) as Mark,
        _ => random.bits(),
    }
}

/// Another mark, near to the own one or far from it.
pub fn foreign(random: &mut Random, own: Mark) -> Mark {
    let difference =
        if random.one_in(4) { Difference::Far } else { random.pick(&Difference::NEAR) };
    match difference.apply(random, own) {
        // A mark that reads the same from both ends, or a chance, gives the own one back.
        same if same == own => !own,
        other => other,
    }
}

/// The mark of a message that comes to a wall: mostly its own.
pub fn delivered(random: &mut Random, own: Mark) -> Mark {
    if random.one_in(4) {
        foreign(random, own)
    } else {
        own
    }
}
