//! Windows of a desk: after a run of accepted edits, altered, of another desk, or any bytes.

use super::marks;
use super::messages::{message, spoil, Fault};
use super::random::Random;
use crate::bytes::put;
use crate::message::*;
use crate::window::{self, slot_at, Window};

/// What a catch-up names: the desk's mark and count, and the wall's count.
#[derive(Clone, Copy, Debug, PartialEq, Eq)]
pub struct Asked {
    pub mark: Mark,
    pub count: u32,
    pub wall_count: u32,
}

impl Asked {
    /// How many messages are due; none for a wall above its desk.
    pub fn due(&self) -> u32 {
        self.count.saturating_sub(self.wall_count)
    }

    /// The number of a message that is due, the first and the last of them more often; where none is,
    /// the desk's last.
    fn some_due(&self, random: &mut Random) -> u32 {
        let others = self.due().saturating_sub(1);
        let before_last = random.below(others as usize + 1) as u32;
        self.count - random.pick(&[0, others, before_last])
    }
}

/// A field of a message.
#[derive(Clone, Copy, Debug, PartialEq, Eq, PartialOrd, Ord)]
pub enum Field {
    Length,
    Version,
    Mark,
    Number,
    Operation,
    Curve,
    X,
    Y,
}

impl Field {
    pub const ALL: [Field; 8] = [
        Field::Length,
        Field::Version,
        Field::Mark,
        Field::Number,
        Field::Operation,
        Field::Curve,
        Field::X,
        Field::Y,
    ];

    /// Where the field begins and ends in a message.
    pub fn place(self) -> (usize, usize) {
        match self {
            Field::Length => (0, VERSION_AT),
            Field::Version => (VERSION_AT, MARK_AT),
            Field::Mark => (MARK_AT, NUMBER_AT),
            Field::Number => (NUMBER_AT, OPERATION_AT),
            Field::Operation => (OPERATION_AT, CURVE_AT),
            Field::Curve => (CURVE_AT, X_AT),
            Field::X => (X_AT, Y_AT),
            Field::Y => (Y_AT, SIZE),
        }
    }
}

/// How a window was made: but for the first and the last two from one after a desk's run.
#[derive(Clone, Copy, Debug, PartialEq, Eq, PartialOrd, Ord)]
pub enum Making {
    /// Zeros, of a desk that wrote no message yet or was left without its window.
    Empty,
    /// A run that ends at the desk's count.
    Run,
    /// A run that ends at another count, at times by 64 off.
    OtherCount,
    /// A slot of zeros.
    Gap,
    /// A bit of a slot's field is another.
    Bit(Field),
    /// A slot's field holds a value next to those that it may hold, or another one that matters.
    Spoilt,
    /// A slot has a message of the same number under another mark.
    OtherStart,
    /// All slots have messages of another desk.
    OtherDesk,
    /// A slot has a message whose number is a multiple of 64 off.
    OtherRound,
    /// All slots stand one slot further or nearer, at times one byte.
    Shifted,
    /// Cut, mostly in or next to a slot that is asked for.
    Shorter,
    /// With bytes behind it.
    Longer,
    /// Any bytes.
    Random,
    /// Each slot by itself: zeros, any bytes, or a message under the right number and mark or not.
    Mixed,
}

/// Each with how often it comes up.
const MAKINGS: [(usize, Making); 21] = [
    (4, Making::Empty),
    (24, Making::Run),
    (8, Making::OtherCount),
    (4, Making::Gap),
    (3, Making::Bit(Field::Length)),
    (3, Making::Bit(Field::Version)),
    (3, Making::Bit(Field::Mark)),
    (3, Making::Bit(Field::Number)),
    (3, Making::Bit(Field::Operation)),
    (2, Making::Bit(Field::Curve)),
    (2, Making::Bit(Field::X)),
    (2, Making::Bit(Field::Y)),
    (12, Making::Spoilt),
    (4, Making::OtherStart),
    (4, Making::OtherDesk),
    (4, Making::OtherRound),
    (4, Making::Shifted),
    (8, Making::Shorter),
    (6, Making::Longer),
    (3, Making::Random),
    (4, Making::Mixed),
];

/// The faults of a message that leave its size.
const FAULTS: [Fault; 8] = [
    Fault::Length,
    Fault::Version,
    Fault::Mark,
    Fault::Number,
    Fault::Operation,
    Fault::Curve,
    Fault::Pick,
    Fault::Byte,
];

impl Making {
    pub fn all() -> impl Iterator<Item = Making> {
        MAKINGS.into_iter().map(|(_, making)| making)
    }

    pub fn any(random: &mut Random) -> Making {
        random.weighted(&MAKINGS)
    }

    pub fn name(self) -> &'static str {
        match self {
            Making::Empty => "empty",
            Making::Run => "run",
            Making::OtherCount => "other count",
            Making::Gap => "gap",
            Making::Bit(Field::Length) => "bit of length",
            Making::Bit(Field::Version) => "bit of version",
            Making::Bit(Field::Mark) => "bit of mark",
            Making::Bit(Field::Number) => "bit of number",
            Making::Bit(Field::Operation) => "bit of op.",
            Making::Bit(Field::Curve) => "bit of curve",
            Making::Bit(Field::X) => "bit of x",
            Making::Bit(Field::Y) => "bit of y",
            Making::Spoilt => "spoilt",
            Making::OtherStart => "other start",
            Making::OtherDesk => "other desk",
            Making::OtherRound => "other round",
            Making::Shifted => "shifted",
            Making::Shorter => "shorter",
            Making::Longer => "longer",
            Making::Random => "random",
            Making::Mixed => "mixed",
        }
    }

    /// A window made so for what a catch-up names.
    pub fn window(self, random: &mut Random, asked: Asked) -> Vec<u8> {
        let Asked { mark, count, .. } = asked;
        let last = if self == Making::OtherCount { other_count(random, count) } else { count };
        let desk = if self == Making::OtherDesk { marks::foreign(random, mark) } else { mark };
        let length = run_length(random);
        let mut bytes = after_run(random, desk, last, length).bytes.to_vec();
        // One in eight is altered where nothing is asked for.
        let number = if random.one_in(8) { asked.wall_count } else { asked.some_due(random) };
        let at = slot_at(number);
        match self {
            Making::Run | Making::OtherCount | Making::OtherDesk => {}
            Making::Empty => bytes.fill(0),
            Making::Gap => bytes[at..at + SIZE].fill(0),
            Making::Bit(field) => {
                let (from, to) = field.place();
                bytes[at + from + random.below(to - from)] ^= 1 << random.below(8);
            }
            Making::Spoilt => {
                let mut slot = bytes[at..at + SIZE].to_vec();
                let fault = random.pick(&FAULTS);
                spoil(random, &mut slot, fault);
                bytes[at..at + SIZE].copy_from_slice(&slot);
            }
            Making::OtherStart => {
                let foreign = marks::foreign(random, mark);
                put(&mut bytes, at, numbered(random, number, foreign));
            }
            Making::OtherRound => {
                let other = other_round(random, number);
                put(&mut bytes, at, numbered(random, other, mark));
            }
            Making::Shifted => {
                let by = random.pick(&[SIZE, SIZE, 1]);
                let places = random.pick(&[by, window::SIZE - by]);
                bytes.rotate_right(places);
            }
            Making::Shorter => {
                let in_slot = random.below(SIZE);
                let near = random.pick(&[0, 1, in_slot, SIZE - 1, SIZE]);
                let anywhere = random.below(window::SIZE);
                let few = random.pick(&[0, 1, SIZE, window::SIZE - 1, window::SIZE - SIZE]);
                bytes.truncate(random.weighted(&[(6, at + near), (1, anywhere), (2, few)]));
            }
            Making::Longer => {
                let more = random.pick(&[1, SIZE - 1, SIZE, SIZE + 1, window::SIZE]);
                let behind = after_run(random, mark, count, length).bytes;
                bytes.extend(&behind[..more]);
            }
            Making::Random => bytes.fill_with(|| random.bits() as u8),
            Making::Mixed => mix(random, mark, count, &mut bytes),
        }
        bytes
    }
}

/// The window after a run of so many accepted edits, of which the last has this number.
pub fn after_run(random: &mut Random, mark: Mark, last: u32, length: u32) -> Window {
    let mut window = Window::empty();
    for before in last.saturating_sub(length)..last {
        let number = before + 1;
        window.slide(number, &numbered(random, number, mark));
    }
    window
}

/// A message under a number and a mark.
pub fn numbered(random: &mut Random, number: u32, mark: Mark) -> [u8; SIZE] {
    to_bytes(&Message { number, edit: message(random).edit }, mark)
}

/// Up to 200 edits, at times about as many as a window has slots.
fn run_length(random: &mut Random) -> u32 {
    match random.below(6) {
        0 => random.below(10) as u32,
        1 => 62 + random.below(5) as u32,
        2 => random.below(201) as u32,
        _ => 200,
    }
}

fn other_count(random: &mut Random, count: u32) -> u32 {
    let off = random.pick(&[1, 1, 2, 63, 64, 65]);
    match random.one_in(2) {
        true => count.saturating_sub(off),
        false => count.saturating_add(off),
    }
}

/// A number of the same slot, at times one whose last byte or last two bytes are the same too.
fn other_round(random: &mut Random, number: u32) -> u32 {
    let off = random.pick(&[64, 64, 128, 256, 1 << 16, 1 << 24, 1 << 31]);
    match random.one_in(2) {
        true => number.wrapping_sub(off),
        false => number.wrapping_add(off),
    }
}

fn mix(random: &mut Random, mark: Mark, count: u32, bytes: &mut [u8]) {
    for before in count.saturating_sub(window::MESSAGES as u32)..count {
        let number = before + 1;
        let slot = match random.below(12) {
            0 => [0; SIZE],
            1 => std::array::from_fn(|_| random.bits() as u8),
            2 => {
                let foreign = marks::foreign(random, mark);
                numbered(random, number, foreign)
            }
            3 => {
                let other = other_round(random, number);
                numbered(random, other, mark)
            }
            _ => numbered(random, number, mark),
        };
        put(bytes, slot_at(number), slot);
    }
}
