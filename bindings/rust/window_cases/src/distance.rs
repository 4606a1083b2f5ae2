//! How far a wall is behind its desk.

use crate::plain::MESSAGES;
use oracle::generate::random::Random;

/// By how much a wall's count differs from its desk's.
#[derive(Clone, Copy, Debug, PartialEq, Eq, PartialOrd, Ord)]
pub enum Distance {
    FarAbove,
    OneAbove,
    Level,
    OneDue,
    Some,
    /// One less than a window holds.
    AllButOne,
    /// As many as a window holds.
    All,
    /// One more than a window holds.
    OneTooMany,
    TooMany,
}

const MOST: u32 = MESSAGES as u32;

impl Distance {
    pub const ALL: [Distance; 9] = [
        Distance::FarAbove,
        Distance::OneAbove,
        Distance::Level,
        Distance::OneDue,
        Distance::Some,
        Distance::AllButOne,
        Distance::All,
        Distance::OneTooMany,
        Distance::TooMany,
    ];

    pub fn between(count: u32, wall_count: u32) -> Distance {
        if wall_count > count {
            return if wall_count - count == 1 { Distance::OneAbove } else { Distance::FarAbove };
        }
        match count - wall_count {
            0 => Distance::Level,
            1 => Distance::OneDue,
            due if due < MOST - 1 => Distance::Some,
            due if due == MOST - 1 => Distance::AllButOne,
            due if due == MOST => Distance::All,
            due if due == MOST + 1 => Distance::OneTooMany,
            _ => Distance::TooMany,
        }
    }

    pub fn name(self) -> &'static str {
        match self {
            Distance::FarAbove => "far above",
            Distance::OneAbove => "one above",
            Distance::Level => "level",
            Distance::OneDue => "1 due",
            Distance::Some => "2 to 62 due",
            Distance::AllButOne => "63 due",
            Distance::All => "64 due",
            Distance::OneTooMany => "65 due",
            Distance::TooMany => "more due",
        }
    }
}

/// Counts of desk and wall: the desk's at both ends and about the first times that a slot is used again, the
/// wall's next above it, level with it and each behind it, to beyond what a window holds.
pub fn about_each_limit() -> impl Iterator<Item = [u32; 2]> + Clone {
    const COUNTS: [u32; 16] = [
        0,
        1,
        2,
        MOST - 1,
        MOST,
        MOST + 1,
        MOST + 2,
        2 * MOST - 1,
        2 * MOST,
        2 * MOST + 1,
        1 << 31,
        u32::MAX - MOST - 1,
        u32::MAX - MOST,
        u32::MAX - MOST + 1,
        u32::MAX - 1,
        u32::MAX,
    ];
    let walls = |count: u32| (count.saturating_sub(MOST + 2)..=count).chain(count.checked_add(1));
    COUNTS.into_iter().flat_map(move |count| walls(count).map(move |wall| [count, wall]))
}

/// A desk's count: about the multiples of 64, at both ends, or any.
pub fn count(random: &mut Random) -> u32 {
    let (any, low) = (random.bits() as u32, random.below(200) as u32);
    let lap = MOST * random.pick(&[1, 2, 3, 1 << 20]) - 3 + random.below(7) as u32;
    let high = u32::MAX - random.below(80) as u32;
    random.weighted(&[(6, low), (4, lap), (3, any), (3, high), (1, 0), (2, u32::MAX)])
}

/// A wall's count: about its desk's, about what a window holds before it, at both ends, or any.
pub fn wall_count(random: &mut Random, count: u32) -> u32 {
    let before = |by: u32| count.saturating_sub(by);
    let within = before(random.below(MESSAGES + 1) as u32);
    let limit = before(random.pick(&[MOST - 1, MOST, MOST, MOST + 1, MOST + 2]));
    let near = before(random.below(4) as u32);
    let above = count.saturating_add(random.pick(&[1, 1, 2, MOST, 1 << 16]));
    let (any, far) = (random.bits() as u32, before(random.below(1_000) as u32));
    random.weighted(&[
        (8, within),
        (8, limit),
        (4, near),
        (2, above),
        (1, any),
        (1, far),
        (1, 0),
        (1, u32::MAX),
    ])
}
