//! Messages read under a mark and written back by both sides.

use crate::copies::{self, engine_answer, oracle_answer, Answer};
use crate::counts::Counts;
use crate::hex::HexMark;
use crate::marks;
use crate::numerals::numeral;
use crate::shrink;
use crate::subject::Subject;
use oracle::generate::{messages, random::Random};
use oracle::message::{self, Mark};
use std::marker::PhantomData;

/// What is compared with the oracle.
pub trait Implementation {
    /// Reads a message and writes it back to the front of the buffer, both under one mark.
    fn copy(bytes: &[u8], mark: Mark, out: &mut [u8]) -> u32;
}

pub struct Engine;

impl Implementation for Engine {
    fn copy(bytes: &[u8], mark: Mark, out: &mut [u8]) -> u32 {
        engine::message_copy(bytes, mark, out)
    }
}

pub struct Messages<I>(PhantomData<I>);

/// The rows of messages that are read.
const OPERATIONS: [&str; 3] = ["trim", "split", "extend"];

/// The mark of a wall, and what it reads.
#[derive(Debug)]
pub struct Case {
    mark: HexMark,
    copy: copies::Case,
}

impl<I: Implementation> Subject for Messages<I> {
    const NAME: &'static str = "messages";
    type Case = Case;
    type Answer = Answer;
    type Coverage = Counts;

    fn case(random: &mut Random) -> Case {
        let (mark, bytes) = messages::delivery(random);
        Case { mark: HexMark(mark), copy: copies::Case::new(bytes, random) }
    }

    fn oracle(case: &Case, counts: &mut Counts) -> Answer {
        let HexMark(mark) = case.mark;
        let read = message::read(&case.copy.bytes.0, mark);
        let answer = oracle_answer(&case.copy, |_, out| message::write(&read?, mark, out));
        let outcome = numeral(answer.number());
        marks::count(mark, &case.copy.bytes.0, outcome, counts);
        if let Ok(message) = read {
            counts.add(OPERATIONS[usize::from(message.edit.operation.code()) - 1], outcome);
        }
        answer
    }

    fn engine(case: &Case) -> Answer {
        engine_answer(&case.copy, |bytes, out| I::copy(bytes, case.mark.0, out))
    }

    fn shrink(case: Case, differs: impl Fn(&Case) -> bool) -> Case {
        let with = |bytes: &[u8]| Case { mark: case.mark, copy: case.copy.with_bytes(bytes) };
        with(&shrink::bytes(&case.copy.bytes.0, |bytes| differs(&with(bytes))))
    }
}
