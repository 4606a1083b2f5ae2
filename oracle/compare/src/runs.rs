//! Whole runs of the wall's program.

use crate::counts::Counts;
use crate::hex::Hex;
use crate::marks;
use crate::numerals::numeral;
use crate::shrink;
use crate::subject::Subject;
use oracle::bytes::u64_at;
use oracle::generate::{random::Random, runs};
use oracle::image;
use oracle::message::{self, MARK_SIZE};
use oracle::program::{run_watched, Parts, MAX_INPUT};
use oracle::refusal::{number_of, Refusal};
use oracle::replication::Delivery;
use std::fmt;
use std::marker::PhantomData;

/// What is compared with the oracle.
pub trait Implementation {
    /// Answers how many bytes it wrote to the front of the buffer.
    fn wall(input: &[u8], out: &mut [u8]) -> usize;
}

pub struct Engine;

impl Implementation for Engine {
    fn wall(input: &[u8], out: &mut [u8]) -> usize {
        engine::replication::wall(input, out)
    }
}

pub struct Runs<I>(PhantomData<I>);

/// The bytes written, and the whole buffer afterwards.
#[derive(PartialEq)]
pub struct Answer {
    written: usize,
    out: Hex,
}

impl fmt::Debug for Answer {
    fn fmt(&self, f: &mut fmt::Formatter<'_>) -> fmt::Result {
        let Hex(out) = &self.out;
        write!(f, "{} written, {:?}", self.written, Hex(out[..self.written.min(ROOM)].to_vec()))
    }
}

/// More than any image needs.
const ROOM: usize = image::MAX_SIZE + 64;
/// What a buffer holds before a call.
const FILL: u8 = 0x5a;

fn answer(write: impl FnOnce(&mut [u8]) -> usize) -> Answer {
    let mut out = vec![FILL; ROOM];
    let written = write(&mut out);
    Answer { written, out: Hex(out) }
}

/// Puts bytes to the front of a buffer and answers how many they are.
pub fn put_in_front(bytes: &[u8], out: &mut [u8]) -> usize {
    out[..bytes.len()].copy_from_slice(bytes);
    bytes.len()
}

/// The bytes that the program writes, all that it meets counted.
fn run_counted(input: &[u8], counts: &mut Counts) -> Vec<u8> {
    let parts = Parts::of(input);
    let image = image::read(parts.image).map(|_| ());
    counts.add("image", numeral(number_of(&image)));
    counts.add("input ends", end(&parts, image));
    counts.add_if(parts.mark.len() < MARK_SIZE, "bytes of a mark", numeral(parts.mark.len()));
    counts.add_if(input.len() > MAX_INPUT, "input", "longer than is read");
    counts.add_if(input.len() == MAX_INPUT, "input", "as long as is read");
    counts.add_if(input.len() <= MAX_INPUT, "input", "read whole");
    run_watched(input, |bytes, delivered| {
        let outcome = match delivered {
            Ok(Delivery::Old) => "old",
            Ok(Delivery::Applied(_)) => "0",
            Err(refused) => numeral(refused.refusal.number()),
        };
        counts.add("delivery", outcome);
        marks::count(u64_at(parts.mark, 0), bytes, outcome, counts);
    })
}

/// Where the part of an input ends that is looked at.
fn end(parts: &Parts, image: Result<(), Refusal>) -> &'static str {
    match (parts.mark.len(), parts.messages.len()) {
        (0, _) if image == Err(Refusal::Length) => "in the image",
        (0, _) => "with the image",
        (1..MARK_SIZE, _) => "in the mark",
        (_, 0) => "with the mark",
        (_, 1..message::SIZE) => "in the first message",
        (_, size) if size.is_multiple_of(message::SIZE) => "with a message",
        _ => "in a later message",
    }
}

impl<I: Implementation> Subject for Runs<I> {
    const NAME: &'static str = "runs of the wall";
    type Case = Hex;
    type Answer = Answer;
    type Coverage = Counts;

    fn case(random: &mut Random) -> Hex {
        Hex(runs::input(random))
    }

    fn oracle(case: &Hex, counts: &mut Counts) -> Answer {
        let bytes = run_counted(&case.0, counts);
        answer(|out| put_in_front(&bytes, out))
    }

    fn engine(case: &Hex) -> Answer {
        answer(|out| I::wall(&case.0, out))
    }

    /// Fewer messages, then fewer records.
    fn shrink(case: Hex, differs: impl Fn(&Hex) -> bool) -> Hex {
        Hex(shrink::until_stable(case.0, |input| {
            let Parts { image, mark, messages, beyond } = Parts::of(input);
            let messages = [messages, beyond].concat();
            let mut messages: Vec<&[u8]> = messages.chunks(message::SIZE).collect();
            shrink::drop_runs(&mut messages, |messages| {
                differs(&Hex([image, mark, &messages.concat()].concat()))
            });
            let behind = [mark, &messages.concat()].concat();
            let with = |image: &[u8]| Hex([image, &behind].concat());
            let image = shrink::records(image, |image| differs(&with(image)));
            *input = with(&image).0;
        }))
    }
}

#[cfg(test)]
mod tests {
    use super::*;
    use crate::subject;
    use oracle::message::{NUMBER_AT, OPERATION_AT};
    use oracle::{program, upstream};

    /// The oracle with a fault: a wall that stops at the second message that it would apply.
    struct OneEditOnly;

    impl Implementation for OneEditOnly {
        fn wall(input: &[u8], out: &mut [u8]) -> usize {
            let Parts { image, mark, messages, .. } = Parts::of(input);
            let second = |bytes: &&[u8]| bytes.get(NUMBER_AT..OPERATION_AT) == Some(&[0, 0, 0, 2]);
            let kept: Vec<&[u8]> =
                messages.chunks(message::SIZE).take_while(|bytes| !second(bytes)).collect();
            put_in_front(&program::run(&[image, mark, &kept.concat()].concat()), out)
        }
    }

    #[test]
    fn a_planted_fault_is_found_and_shrunk() {
        if !upstream::PRESENT {
            return;
        }
        let report = subject::run::<Runs<OneEditOnly>>(5_000, 7).expect_err("a fault was planted");
        let smallest = report.lines().nth(1).expect("the smallest case stands in the second line");
        assert!(smallest.len() < 900, "two messages and a small image are enough: {report}");
    }
}
