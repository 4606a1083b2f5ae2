//! Catch-ups: a desk's window, its count and mark, a wall's count, and the buffer that is lent.

use super::marks;
use super::random::Random;
use super::windows::{Asked, Making};
use crate::message::SIZE;
use crate::window::{self, MESSAGES};

#[derive(Clone, Debug)]
pub struct CatchUp {
    pub making: Making,
    pub asked: Asked,
    pub window: Vec<u8>,
    /// What the buffer holds before the call, as many bytes as are lent.
    pub before: Vec<u8>,
}

impl CatchUp {
    pub fn any(random: &mut Random) -> CatchUp {
        let making = Making::any(random);
        CatchUp::made(random, making)
    }

    pub fn made(random: &mut Random, making: Making) -> CatchUp {
        let (mark, count) = (marks::mark(random), count(random));
        let asked = Asked { mark, count, wall_count: wall_count(random, count) };
        let window = making.window(random, asked);
        let room = room(random, asked.due());
        CatchUp { making, asked, window, before: lent(random, room) }
    }
}

/// A desk's count: about those at which a window fills and turns, about both ends, or any.
pub fn count(random: &mut Random) -> u32 {
    let turn = random.pick(&[64, 64, 128, 192, 256, 1 << 16, 1 << 31]);
    let (few, many, any) = (random.below(3), random.below(200), random.bits() as u32);
    match random.below(8) {
        0 => few as u32,
        1 => many as u32,
        2 => any,
        3 => u32::MAX - few as u32,
        4 => u32::MAX - many as u32,
        _ => turn - 2 + random.below(5) as u32,
    }
}

/// A wall's count: so far back that about as many messages are due as a window has slots, or fewer; at
/// times above the desk's, or at an end.
pub fn wall_count(random: &mut Random, count: u32) -> u32 {
    let (within, beyond) = (random.below(MESSAGES), MESSAGES + 1 + random.below(200));
    let any = random.bits() as u32;
    let back = |due: usize| count.saturating_sub(due as u32);
    match random.below(16) {
        0 => count,
        1 | 2 => back(1 + random.below(2)),
        3..=7 => back(MESSAGES - 2 + random.below(5)),
        8..=11 => back(within),
        12 => back(beyond),
        13 => count.saturating_add(1 + random.below(2) as u32),
        14 => random.pick(&[0, 1, u32::MAX - 1, u32::MAX]),
        _ => any,
    }
}

/// How many bytes are lent: as many as the messages due have, one more or fewer, none, as many as fewer
/// messages have or as all that a window has room for, or any number.
pub fn room(random: &mut Random, due: u32) -> usize {
    let due = (due as usize).min(MESSAGES + 1);
    let size = due * SIZE;
    let fewer = random.below(due + 1) * SIZE;
    let any = random.below(window::SIZE + 2 * SIZE);
    let all = random.pick(&[window::SIZE, window::SIZE, window::SIZE - 1, window::SIZE + SIZE]);
    random.weighted(&[
        (6, size),
        (2, size.saturating_sub(1)),
        (2, size + 1),
        (1, 0),
        (1, fewer),
        (1, any),
        (3, all),
    ])
}

/// Any bytes, mostly no two neighbours alike.
fn lent(random: &mut Random, room: usize) -> Vec<u8> {
    match random.below(8) {
        0 => vec![0; room],
        1 => vec![0xff; room],
        _ => (0..room).map(|_| random.bits() as u8).collect(),
    }
}
