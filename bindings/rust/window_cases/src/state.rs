//! Windows by what became of them before a catch-up.

use crate::plain::{self, slot, Window, MESSAGES, SIZE};
use oracle::generate::marks;
use oracle::generate::messages::{self, Fault};
use oracle::generate::random::Random;
use oracle::message::{self, Mark, Message};

/// What a window holds, for a desk with some count and mark.
#[derive(Clone, Copy, Debug, PartialEq, Eq, PartialOrd, Ord)]
pub enum WindowState {
    /// Zeros.
    Empty,
    /// The desk's last messages.
    Own,
    /// Only some of the last, since the desk went on with zeros.
    Last,
    /// The last messages of a desk with another mark.
    OtherMark,
    /// The desk's last messages, and in one slot one under another mark.
    OneOtherMark,
    /// The desk's own of a later count.
    Later,
    /// The desk's own of an earlier count.
    Earlier,
    /// The desk's last messages, and in one slot one whose number is other by a multiple of 64.
    OtherLap,
    /// The desk's last messages, two of them exchanged.
    Exchanged,
    /// The desk's last messages, all moved by some bytes or slots.
    Shifted,
    /// The desk's last messages with one bit another.
    OneBit,
    /// The desk's last messages with a fault in a field of one.
    Damaged,
    /// Any bytes.
    Random,
}

impl WindowState {
    pub const ALL: [WindowState; 13] = [
        WindowState::Empty,
        WindowState::Own,
        WindowState::Last,
        WindowState::OtherMark,
        WindowState::OneOtherMark,
        WindowState::Later,
        WindowState::Earlier,
        WindowState::OtherLap,
        WindowState::Exchanged,
        WindowState::Shifted,
        WindowState::OneBit,
        WindowState::Damaged,
        WindowState::Random,
    ];

    pub fn name(self) -> &'static str {
        match self {
            WindowState::Empty => "empty",
            WindowState::Own => "own",
            WindowState::Last => "some of the last",
            WindowState::OtherMark => "other mark",
            WindowState::OneOtherMark => "one other mark",
            WindowState::Later => "later",
            WindowState::Earlier => "earlier",
            WindowState::OtherLap => "other lap",
            WindowState::Exchanged => "exchanged",
            WindowState::Shifted => "shifted",
            WindowState::OneBit => "one bit",
            WindowState::Damaged => "damaged",
            WindowState::Random => "random",
        }
    }

    /// The window of a desk with this count and mark. A fault of one slot mostly is in that of a message after
    /// the wall's count.
    pub fn window(
        self,
        random: &mut Random,
        count: u32,
        mark: Mark,
        wall_count: u32,
    ) -> Box<Window> {
        let own = |random: &mut Random, count| last_messages(random, count, mark, MESSAGES);
        let number = some_due(random, count, wall_count);
        match self {
            WindowState::Empty => Box::new([0; SIZE]),
            WindowState::Own => own(random, count),
            WindowState::Last => {
                let held = random.below(MESSAGES + 1);
                last_messages(random, count, mark, held)
            }
            WindowState::OtherMark => {
                let other = marks::foreign(random, mark);
                last_messages(random, count, other, MESSAGES)
            }
            WindowState::OneOtherMark => {
                let mut window = own(random, count);
                let other = marks::foreign(random, mark);
                put(random, &mut window, number, other);
                window
            }
            WindowState::Later => {
                let by = 1 + random.below(MESSAGES) as u32;
                own(random, count.saturating_add(by))
            }
            WindowState::Earlier => {
                let by = 1 + random.below(MESSAGES) as u32;
                own(random, count.saturating_sub(by))
            }
            WindowState::OtherLap => {
                let mut window = own(random, count);
                let laps = random.pick(&[1, 1, 2, 1 << 8, 1 << 16, 1 << 25]) * MESSAGES as u32;
                let other = random.pick(&[number.wrapping_add(laps), number.wrapping_sub(laps)]);
                put(random, &mut window, other, mark);
                window
            }
            WindowState::Exchanged => {
                let mut window = own(random, count);
                let other = number.wrapping_add(1 + random.below(MESSAGES - 1) as u32);
                let [one, two] = [number, other].map(|number| window[slot(number)].to_vec());
                plain::slide(&mut window, number, &two);
                plain::slide(&mut window, other, &one);
                window
            }
            WindowState::Shifted => {
                let mut window = own(random, count);
                let any = 1 + random.below(SIZE - 1);
                window.rotate_left(random.pick(&[1, SIZE - 1, message::SIZE, any]));
                window
            }
            WindowState::OneBit => {
                let mut window = own(random, count);
                let bit = random.below(8 * message::SIZE);
                window[slot(number)][bit / 8] ^= 1 << (bit % 8);
                window
            }
            WindowState::Damaged => {
                let mut window = own(random, count);
                let mut message = window[slot(number)].to_vec();
                let fault = random.pick(&FAULTS);
                messages::spoil(random, &mut message, fault);
                plain::slide(&mut window, number, &message);
                window
            }
            WindowState::Random => Box::new(std::array::from_fn(|_| random.bits() as u8)),
        }
    }
}

/// Those that leave a message's size.
const FAULTS: [Fault; 6] =
    [Fault::Length, Fault::Version, Fault::Number, Fault::Operation, Fault::Curve, Fault::Pick];

/// The number of a message that is due, the first and the last more often; now and then of any other.
fn some_due(random: &mut Random, count: u32, wall_count: u32) -> u32 {
    let due = count.saturating_sub(wall_count).min(MESSAGES as u32);
    let any = count.wrapping_sub(random.below(MESSAGES) as u32);
    if due == 0 {
        return any;
    }
    let (first, between) = (count - due + 1, count - random.below(due as usize) as u32);
    random.pick(&[first, count, between, between, between, any])
}

/// A window that holds the last messages of a desk with this count, at most so many, and zeros.
fn last_messages(random: &mut Random, count: u32, mark: Mark, most: usize) -> Box<Window> {
    let mut window = Box::new([0; SIZE]);
    let before = count.saturating_sub(most as u32);
    (before..count).for_each(|number| put(random, &mut window, number + 1, mark));
    window
}

/// Puts some message with this number and mark into its slot.
fn put(random: &mut Random, window: &mut Window, number: u32, mark: Mark) {
    let message = Message { number, ..messages::message(random) };
    plain::slide(window, number, &message::to_bytes(&message, mark));
}
