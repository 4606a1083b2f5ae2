//! What a wall that fell behind is sent from any window: one call with the buffer that it leaves, and
//! the sum of several.

use crate::counts::Counts;
use crate::hex::{Hex, HexMark};
use crate::numerals::numeral;
use crate::shrink;
use crate::subject::Subject;
use engine::replication;
use oracle::bytes::{put, u32_at, u64_at};
use oracle::generate::catch_ups::CatchUp;
use oracle::generate::random::Random;
use oracle::generate::windows::Asked;
use oracle::message::{self, MARK_AT, NUMBER_AT, OPERATION_AT};
use oracle::refusal::number_of;
use oracle::window::{self, slot_at, MESSAGES};
use std::fmt;
use std::marker::PhantomData;

/// What is compared with the oracle.
pub trait Implementation {
    /// Answers 0 or a refusal's number; what is due goes to the front of the buffer.
    fn catch_up(window: &[u8], asked: Asked, out: &mut [u8]) -> u32;

    /// What so many such calls answer in sum, with room for all that a window holds.
    fn sum(window: &[u8], asked: Asked, times: u32) -> u32 {
        Self::catch_up(window, asked, &mut [0; window::SIZE]).wrapping_mul(times)
    }
}

pub struct Engine;

impl Implementation for Engine {
    fn catch_up(window: &[u8], Asked { mark, count, wall_count }: Asked, out: &mut [u8]) -> u32 {
        replication::catch_up(window, count, mark, wall_count, out)
    }

    fn sum(window: &[u8], Asked { mark, count, wall_count }: Asked, times: u32) -> u32 {
        replication::catch_up_repeated(window, count, mark, wall_count, times)
    }
}

/// The oracle's reading.
pub struct Oracle;

impl Implementation for Oracle {
    fn catch_up(window: &[u8], Asked { mark, count, wall_count }: Asked, out: &mut [u8]) -> u32 {
        number_of(&window::catch_up(window, count, mark, wall_count, out)).into()
    }
}

pub struct CatchUps<I>(PhantomData<I>);

#[derive(Clone)]
pub struct Case {
    call: CatchUp,
    times: u32,
}

/// The number answered, the whole buffer afterwards, and the sum.
#[derive(PartialEq)]
pub struct Answer {
    number: u32,
    out: Hex,
    sum: u32,
}

impl fmt::Debug for Answer {
    fn fmt(&self, f: &mut fmt::Formatter<'_>) -> fmt::Result {
        write!(f, "{}, sum {}, buffer {:?}", self.number, self.sum, self.out)
    }
}

/// Slots of zeros are left out.
impl fmt::Debug for Case {
    fn fmt(&self, f: &mut fmt::Formatter<'_>) -> fmt::Result {
        let Case { call: CatchUp { asked, window, before, .. }, times } = self;
        let Asked { mark, count, wall_count } = *asked;
        write!(f, "desk {:?} at {count}, wall at {wall_count}, ", HexMark(mark))?;
        write!(
            f,
            "{times} times, buffer {:?}, window of {} bytes",
            Hex(before.clone()),
            window.len()
        )?;
        for (place, slot) in window.chunks(message::SIZE).enumerate() {
            if slot.iter().any(|byte| *byte != 0) {
                write!(f, ", slot {place} {:?}", Hex(slot.to_vec()))?;
            }
        }
        Ok(())
    }
}

impl Case {
    fn answer<I: Implementation>(&self) -> Answer {
        let CatchUp { asked, window, before, .. } = &self.call;
        let mut out = before.clone();
        let number = I::catch_up(window, *asked, &mut out);
        Answer { number, out: Hex(out), sum: I::sum(window, *asked, self.times) }
    }

    fn with_window(&self, window: &[u8]) -> Case {
        let mut case = self.clone();
        case.call.window = window.to_vec();
        case
    }

    fn with_buffer(&self, before: &[u8]) -> Case {
        let mut case = self.clone();
        case.call.before = before.to_vec();
        case
    }

    /// Fewer messages due, since the wall's count is higher or the desk's lower. The buffer is as much
    /// longer or shorter than they are as it was, or it is as it was.
    fn with_fewer_due(&self, change: fn(&mut Asked, u32)) -> Vec<Case> {
        let due = self.call.asked.due();
        let cases = (0..due.min(MESSAGES as u32 + 2)).flat_map(|fewer| {
            let mut same_room = self.clone();
            change(&mut same_room.call.asked, fewer);
            let mut shorter = same_room.clone();
            let less = (due - fewer) as usize * message::SIZE;
            let room = shorter.call.before.len().saturating_sub(less);
            shorter.call.before.truncate(room);
            [shorter, same_room]
        });
        cases.collect()
    }

    /// The mark is 0, and other marks differ from it as they did.
    fn with_mark_0(&self) -> Case {
        let own = self.call.asked.mark;
        let mut case = self.clone();
        case.call.asked.mark = 0;
        for slot in case.call.window.chunks_mut(message::SIZE) {
            if slot.len() >= NUMBER_AT && slot.iter().any(|byte| *byte != 0) {
                let mark = u64_at(slot, MARK_AT) ^ own;
                put(slot, MARK_AT, mark.to_be_bytes());
            }
        }
        case
    }

    /// Counts and numbers are lower by a multiple of 64.
    fn with_low_count(&self) -> Case {
        let mut case = self.clone();
        let Asked { count, wall_count, .. } = &mut case.call.asked;
        let slots = MESSAGES as u32;
        let less = (*count / slots).min(*wall_count / slots) * slots;
        (*count, *wall_count) = (*count - less, *wall_count - less);
        for slot in case.call.window.chunks_mut(message::SIZE) {
            if slot.len() >= OPERATION_AT && slot.iter().any(|byte| *byte != 0) {
                let number = u32_at(slot, NUMBER_AT).wrapping_sub(less);
                put(slot, NUMBER_AT, number.to_be_bytes());
            }
        }
        case
    }

    fn count(&self, outcome: &'static str, counts: &mut Counts) {
        let CatchUp { making, asked, before, .. } = &self.call;
        let Asked { count, wall_count, .. } = *asked;
        let due = asked.due();
        counts.add(making.name(), outcome);
        counts.add("desk's count", some_count(count));
        counts.add("due", some_due(asked));
        if outcome == "0" || outcome == "25" {
            counts.add(if outcome == "0" { "room, 0" } else { "room, 25" }, some_room(due, before));
        }
        let turns = (wall_count..count).take(MESSAGES).skip(1).any(|k| slot_at(k + 1) == 0);
        counts.add_if(outcome == "0" && turns, "sent", "from slot 63 to slot 0");
        counts.add_if(outcome == "0" && due == MESSAGES as u32, "sent", "all slots");
        counts.add_if(outcome == "0" && due > 0 && count == u32::MAX, "sent", "the last number");
    }
}

fn some_count(count: u32) -> &'static str {
    match count {
        0 | 1 => numeral(count as usize),
        63 => "63",
        64 => "64",
        65 => "65",
        127..=129 => "about 128",
        u32::MAX => "the last",
        _ if u32::MAX - count < 200 => "before the last",
        _ => "other",
    }
}

fn some_due(asked: &Asked) -> &'static str {
    match asked.due() {
        _ if asked.wall_count > asked.count => "wall above",
        0 => "0",
        1 => "1",
        2..63 => "2 to 62",
        63 => "63",
        64 => "64",
        65 => "65",
        _ => "more",
    }
}

/// By what the messages due need, which are at most 64.
fn some_room(due: u32, lent: &[u8]) -> &'static str {
    let (room, size) = (lent.len(), due as usize * message::SIZE);
    match room {
        _ if room == size => "exact",
        _ if room + 1 == size => "one short",
        _ if room == size + 1 => "one more",
        0 => "none",
        window::SIZE => "all 64",
        _ if room < size && room.is_multiple_of(message::SIZE) => "fewer messages",
        _ if room < size => "less",
        _ => "more",
    }
}

impl<I: Implementation> Subject for CatchUps<I> {
    const NAME: &'static str = "catch-ups";
    type Case = Case;
    type Answer = Answer;
    type Coverage = Counts;

    fn case(random: &mut Random) -> Case {
        let call = CatchUp::any(random);
        Case { call, times: random.weighted(&[(1, 0), (5, 1), (1, 2), (1, 3)]) }
    }

    fn oracle(case: &Case, counts: &mut Counts) -> Answer {
        let answer = case.answer::<Oracle>();
        case.count(numeral(answer.number as usize), counts);
        answer
    }

    fn engine(case: &Case) -> Answer {
        case.answer::<I>()
    }

    /// Fewer calls and fewer messages, mark 0 and low numbers; then fewer and lower bytes.
    fn shrink(case: Case, differs: impl Fn(&Case) -> bool) -> Case {
        let first_of = |case: Case, simpler: Vec<Case>| {
            simpler.into_iter().find(|other| differs(other)).unwrap_or(case)
        };
        let times = [0, 1].map(|times| Case { times, ..case.clone() }).to_vec();
        let case = first_of(case, times);
        let higher = case.with_fewer_due(|asked, due| asked.wall_count = asked.count - due);
        let case = first_of(case, higher);
        let lower = case.with_fewer_due(|asked, due| asked.count = asked.wall_count + due);
        let case = first_of(case, lower);
        let with_mark_0 = case.with_mark_0();
        let case = first_of(case, vec![with_mark_0]);
        let with_low_count = case.with_low_count();
        let case = first_of(case, vec![with_low_count]);
        let case = without_slots(case, &differs);
        let window = shrink::bytes(&case.call.window, |bytes| differs(&case.with_window(bytes)));
        let case = case.with_window(&window);
        let before = shrink::bytes(&case.call.before, |bytes| differs(&case.with_buffer(bytes)));
        case.with_buffer(&before)
    }
}

/// Zeros in each slot that the difference does not need.
fn without_slots(mut case: Case, differs: impl Fn(&Case) -> bool) -> Case {
    for at in (0..case.call.window.len()).step_by(message::SIZE) {
        let mut other = case.clone();
        other.call.window.iter_mut().skip(at).take(message::SIZE).for_each(|byte| *byte = 0);
        if differs(&other) {
            case = other;
        }
    }
    case
}
