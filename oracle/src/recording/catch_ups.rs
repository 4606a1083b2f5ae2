//! The list of catch-ups: windows of every making with what a wall is sent from them, or why it is not.
//!
//! The input of an entry holds the call and what it writes, all numbers big-endian:
//!
//! | bytes | what |
//! |---|---|
//! | 8 | the desk's mark |
//! | 4 | the desk's count |
//! | 4 | the wall's count |
//! | 2 | room: how many bytes the caller lends, at most 2,560 |
//! | 2 | size of the window |
//!
//! then the window, then what the call writes to the front of the lent bytes: the messages due, or
//! nothing where it is refused. The entry ends there: its length is 20, the window's size, and 38 for
//! each message due.

use super::List;
use crate::bytes::{put, u16_at, u32_at, u64_at};
use crate::generate::catch_ups::CatchUp;
use crate::generate::random::Random;
use crate::generate::windows::{after_run, numbered, Asked, Field, Making};
use crate::message::{self, Mark, CURVE_AT, MARK_AT, NUMBER_AT, SIZE};
use crate::refusal::Refusal;
use crate::window::{self, slot_at, MESSAGES};
use std::collections::BTreeSet;

pub const HEADER: usize = 20;
/// The most bytes that are lent.
pub const MOST_ROOM: usize = 2_560;
/// What the length field of a message without a mark holds.
const LENGTH_OF_VERSION_1: u8 = 26;
/// Eight bytes of which no two are alike.
const MARK: Mark = 0x0123_4567_89ab_cdef;
/// Generated calls from which one of each making and outcome is chosen, and how many messages it writes
/// at most.
const CHOICE: usize = 20_000;
const MOST_SENT: usize = 6;

pub fn catch_ups(seed: u64) -> List<usize> {
    let mut random = Random::new(seed);
    let mut list = List::new(outcome_of);
    add_ends(&mut list);
    add_rooms(&mut random, &mut list);
    add_gaps(&mut random, &mut list);
    add_bits(&mut random, &mut list);
    add_edges(&mut random, &mut list);
    add_numbers_and_marks(&mut random, &mut list);
    add_sizes(&mut random, &mut list);
    add_whole_windows(&mut random, &mut list);
    let mut taken = BTreeSet::new();
    for _ in 0..CHOICE {
        let CatchUp { making, asked, window, before } = CatchUp::any(&mut random);
        let (outcome, written) = answer(asked, before.len(), &window);
        let is_large = before.len() > MOST_ROOM || written.len() > MOST_SENT * SIZE;
        // The window of a desk that the wall is above is not looked at.
        let needs_window = outcome != Refusal::CountAbove.number() || making == Making::Run;
        if !is_large && needs_window && taken.insert((making, outcome)) {
            add(&mut list, asked, before.len(), &window);
        }
    }
    list
}

/// The parts of an entry's input: the call with its room and window, and what it writes.
pub struct Entry<'a> {
    pub asked: Asked,
    pub room: usize,
    pub window: &'a [u8],
    pub written: &'a [u8],
}

impl Entry<'_> {
    pub fn of(input: &[u8]) -> Entry<'_> {
        let (head, behind) = input.split_at(HEADER);
        let (window, written) = behind.split_at(u16_at(head, 18).into());
        let asked =
            Asked { mark: u64_at(head, 0), count: u32_at(head, 8), wall_count: u32_at(head, 12) };
        Entry { asked, room: u16_at(head, 16).into(), window, written }
    }
}

fn outcome_of(input: &[u8]) -> Result<usize, Refusal> {
    let Entry { asked, room, window, .. } = Entry::of(input);
    let Asked { mark, count, wall_count } = asked;
    window::catch_up(window, count, mark, wall_count, &mut vec![0; room])
}

/// The number that a call answers and the bytes that it writes.
fn answer(Asked { mark, count, wall_count }: Asked, room: usize, window: &[u8]) -> (u8, Vec<u8>) {
    let mut out = vec![0; room];
    match window::catch_up(window, count, mark, wall_count, &mut out) {
        Ok(messages) => (0, out[..messages * SIZE].to_vec()),
        Err(refusal) => (refusal.number(), Vec::new()),
    }
}

fn add(list: &mut List<usize>, asked: Asked, room: usize, window: &[u8]) {
    let Asked { mark, count, wall_count } = asked;
    let mut input = vec![0; HEADER];
    put(&mut input, 0, mark.to_be_bytes());
    put(&mut input, 8, count.to_be_bytes());
    put(&mut input, 12, wall_count.to_be_bytes());
    put(&mut input, 16, (room as u16).to_be_bytes());
    put(&mut input, 18, (window.len() as u16).to_be_bytes());
    input.extend(window);
    input.extend(answer(asked, room, window).1);
    list.add(input);
}

/// A wall so many messages behind its desk.
fn behind(count: u32, due: u32) -> Asked {
    Asked { mark: MARK, count, wall_count: count - due }
}

/// The slots of a desk's window up to that of its last message.
fn front_of_run(random: &mut Random, last: u32) -> Vec<u8> {
    let bytes = after_run(random, MARK, last, MESSAGES as u32).bytes;
    bytes[..slot_at(last) + SIZE].to_vec()
}

/// Counts at both ends, with windows of no bytes and of zeros: none is due, or the message after the
/// wall's count is not held, or the wall is above, with no room and with some.
fn add_ends(list: &mut List<usize>) {
    let ends = [0, 1, 2, u32::MAX - 1, u32::MAX];
    for count in ends {
        for wall_count in ends {
            for (room, size) in [(0, 0), (SIZE, 2 * SIZE)] {
                add(list, Asked { mark: 0, count, wall_count }, room, &vec![0; size]);
            }
        }
    }
}

/// Zero to five messages due, with rooms about what they need. The first stands in slot 0.
fn add_rooms(random: &mut Random, list: &mut List<usize>) {
    let window = front_of_run(random, 68);
    for due in 0..=5 {
        let size = due as usize * SIZE;
        let less = [1, SIZE, size].map(|by| size.saturating_sub(by));
        for room in [size, size + 1, window::SIZE].into_iter().chain(less) {
            add(list, behind(68, due), room, &window);
        }
    }
}

/// Five messages due, of which each in turn is not held, with room for all and with none.
fn add_gaps(random: &mut Random, list: &mut List<usize>) {
    let good = front_of_run(random, 68);
    for at in (0..good.len()).step_by(SIZE) {
        let mut window = good.clone();
        window[at..at + SIZE].fill(0);
        for room in [0, good.len()] {
            add(list, behind(68, 5), room, &window);
        }
    }
}

/// Each bit of what decides whether the one message due is held, and one of each byte behind.
fn add_bits(random: &mut Random, list: &mut List<usize>) {
    let good = front_of_run(random, 64);
    let mut add_changed = |at: usize, bit: usize| {
        let mut window = good.clone();
        window[at] ^= 1 << bit;
        add(list, behind(64, 1), SIZE, &window);
    };
    for field in Field::ALL {
        let (from, to) = field.place();
        for at in from..to {
            match field {
                Field::Curve | Field::X | Field::Y => add_changed(at, at % 8),
                _ => (0..8).for_each(|bit| add_changed(at, bit)),
            }
        }
    }
}

/// Each byte of the leading fields but the mark at its limits in the slot of the one message due.
fn add_edges(random: &mut Random, list: &mut List<usize>) {
    let good = front_of_run(random, 64);
    let (length, shorter) = (message::LENGTH as u8, LENGTH_OF_VERSION_1);
    for at in (0..MARK_AT).chain(NUMBER_AT..CURVE_AT) {
        for value in [0, 1, 2, 3, 4, 5, shorter, length - 1, length, length + 1, SIZE as u8, 255] {
            let mut window = good.clone();
            window[at] = value;
            add(list, behind(64, 1), SIZE, &window);
        }
    }
}

/// Messages whose number is a multiple of 64 off, marks that a careless comparison takes for the own
/// one, and a pick that is no number.
fn add_numbers_and_marks(random: &mut Random, list: &mut List<usize>) {
    for count in [64, 1 << 16, 1 << 31] {
        for off in [64, 128, 256, 1 << 16, 1 << 24, 1 << 31] {
            for other in [u32::wrapping_add(count, off), count.wrapping_sub(off)] {
                add(list, behind(count, 1), SIZE, &numbered(random, other, MARK));
            }
        }
    }
    let low_half = Mark::from(u32::MAX);
    let others = [
        0,
        Mark::MAX,
        MARK + 1,
        MARK - 1,
        MARK & low_half,
        MARK & !low_half,
        MARK.swap_bytes(),
        !MARK,
    ];
    for mark in others {
        let window = numbered(random, 64, mark);
        add(list, behind(64, 1), SIZE, &window);
        add(list, Asked { mark, ..behind(64, 1) }, SIZE, &window);
    }
    let mut window = numbered(random, 64, MARK);
    for bits in [0x7ff0_0000_0000_0001, 0xfff8_0000_0000_0000, u64::MAX] {
        put(&mut window, message::X_AT, u64::to_be_bytes(bits));
        add(list, behind(64, 1), SIZE, &window);
    }
}

/// Windows that end at each place of the one slot that is asked for, and longer ones, behind whose end
/// a message of the right number stands.
fn add_sizes(random: &mut Random, list: &mut List<usize>) {
    let window = front_of_run(random, 65);
    for size in SIZE..=window.len() {
        add(list, behind(65, 1), SIZE, &window[..size]);
    }
    for (last, more) in [(64, 1), (64, SIZE), (128, SIZE), (100, window::SIZE)] {
        let mut longer = after_run(random, MARK, last, MESSAGES as u32).bytes.to_vec();
        let slot = window::slot(&longer, last).expect("a whole window").to_vec();
        longer.extend(slot.iter().cycle().take(more));
        add(list, behind(last, 1), SIZE, &longer);
        longer[slot_at(last)] ^= 1;
        add(list, behind(last, 1), SIZE, &longer);
    }
}

/// Runs that end about where a window fills and turns and at the last number, with about as many
/// messages due as it has slots, or a few from its last slot on to its first.
fn add_whole_windows(random: &mut Random, list: &mut List<usize>) {
    for count in [64, 65, 129, u32::MAX] {
        let window = after_run(random, MARK, count, 200).bytes;
        for due in [1, 3, 63, 64, 65].into_iter().filter(|due| *due <= count) {
            let size = due as usize * SIZE;
            add(list, behind(count, due), size, &window);
        }
        for room in [0, window::SIZE - 1] {
            add(list, behind(count, MESSAGES as u32), room, &window);
        }
    }
}
