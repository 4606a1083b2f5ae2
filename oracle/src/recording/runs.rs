//! The list of runs of the wall's program: good ones, and every fault of images and messages.
//!
//! The input of an entry is the size of the program's input in four big-endian bytes, the program's
//! input, and the bytes that the program writes for it. The outcome is that of the image.

use super::List;
use crate::bytes::{put, u32_at};
use crate::drawing::Relation;
use crate::examples::{l, t};
use crate::generate::{random::Random, runs};
use crate::image::{self, HEADER_SIZE};
use crate::message::{self, Edit, Mark, Message, Operation, OPERATION_AT};
use crate::program::{self, Parts, MAX_INPUT};
use crate::refusal::Refusal;
use crate::replication::Delivery;
use std::collections::{BTreeMap, BTreeSet};

/// Bytes of an entry's input before the program's.
pub const HEADER: usize = 4;
/// Generated runs from which the list is chosen.
const CHOICE: usize = 20_000;
/// How many runs of each sort are recorded, and how large their inputs may be.
const EACH: usize = 3;
const LARGEST: usize = 7_000;
/// The mark of the runs that are not generated.
const MARK: Mark = 0x0123_4567_89ab_cdef;

pub fn runs(seed: u64) -> List<()> {
    let mut list = List::new(outcome_of);
    add_short_inputs(&mut list);
    add_marks(&mut list);
    add_limits(&mut list);
    let mut random = Random::new(seed);
    let mut taken: BTreeMap<Sort, usize> = BTreeMap::new();
    for _ in 0..CHOICE {
        let input = runs::input(&mut random);
        if input.len() > LARGEST {
            continue;
        }
        let sorts = sorts(&input);
        if sorts.iter().any(|sort| taken.get(sort).is_none_or(|count| *count < EACH)) {
            sorts.into_iter().for_each(|sort| *taken.entry(sort).or_default() += 1);
            add(&mut list, &input);
        }
    }
    list
}

/// How many runs had a delivery of each outcome: a refusal's number, 0 for an edit applied, `OLD`.
pub fn run_coverage(list: &List<()>) -> BTreeMap<u8, usize> {
    let mut counts = BTreeMap::new();
    for (_, entry) in list.entries() {
        let outcomes: BTreeSet<u8> = deliveries(program_input(entry)).into_iter().collect();
        outcomes.into_iter().for_each(|outcome| *counts.entry(outcome).or_default() += 1);
    }
    counts
}

/// Stands for a message whose edit was applied before.
pub const OLD: u8 = u8::MAX;

fn program_input(entry: &[u8]) -> &[u8] {
    &entry[HEADER..][..u32_at(entry, 0) as usize]
}

/// The outcome of the image that an entry's run begins with.
fn outcome_of(entry: &[u8]) -> Result<(), Refusal> {
    image::read(Parts::of(program_input(entry)).image).map(|_| ())
}

fn add(list: &mut List<()>, input: &[u8]) {
    let size = (input.len() as u32).to_be_bytes();
    list.add([&size[..], input, &program::run(input)].concat());
}

/// The outcome of each delivery of a run, in order.
fn deliveries(input: &[u8]) -> Vec<u8> {
    let mut outcomes = Vec::new();
    program::run_watched(input, |_, delivered| {
        outcomes.push(match delivered {
            Ok(Delivery::Old) => OLD,
            Ok(Delivery::Applied(_)) => 0,
            Err(refused) => refused.refusal.number(),
        });
    });
    outcomes
}

/// What a run has in it.
#[derive(PartialEq, Eq, PartialOrd, Ord)]
enum Sort {
    Image(u8),
    /// The outcome of a delivery, and the message's operation byte if it is long enough for one.
    Delivered(u8, Option<u8>),
    /// A delivery and the one behind it: applied, old, ahead, foreign or refused otherwise.
    Followed(u8, u8),
    /// The number of edits applied, in fours, rounded up.
    Applied(usize),
    /// The last message is cut short.
    Rest,
}

fn sorts(input: &[u8]) -> BTreeSet<Sort> {
    let Parts { image, messages, .. } = Parts::of(input);
    if let Err(refusal) = image::read(image) {
        return BTreeSet::from([Sort::Image(refusal.number())]);
    }
    let outcomes = deliveries(input);
    let operations = messages.chunks(message::SIZE).map(|bytes| bytes.get(OPERATION_AT).copied());
    let mut sorts: BTreeSet<Sort> = outcomes
        .iter()
        .zip(operations)
        .map(|(outcome, operation)| Sort::Delivered(*outcome, operation.filter(|code| *code < 4)))
        .collect();
    let broad = |outcome| if [0, OLD, 7, 28].contains(&outcome) { outcome } else { 1 };
    sorts.extend(outcomes.windows(2).map(|pair| Sort::Followed(broad(pair[0]), broad(pair[1]))));
    sorts.insert(Sort::Applied(
        outcomes.iter().filter(|outcome| **outcome == 0).count().div_ceil(4),
    ));
    if !messages.len().is_multiple_of(message::SIZE) {
        sorts.insert(Sort::Rest);
    }
    sorts
}

/// The message of an edit of the line 3.
fn message(mark: Mark, number: u32, operation: Operation, x: f64) -> Vec<u8> {
    let edit = Edit { operation, curve: 3, x, y: 0.0 };
    message::to_bytes(&Message { number, edit }, mark).to_vec()
}

/// An image, a mark and a message, cut at each length of the image's header and at each from one short
/// of the image's end on; the same with a wrong length of the image.
fn add_short_inputs(list: &mut List<()>) {
    let image = image::to_bytes(&l());
    let split = message(MARK, 1, Operation::Split, 1.0);
    let whole = [&image[..], &MARK.to_be_bytes(), &split].concat();
    for size in (0..=HEADER_SIZE).chain(image.len() - 1..=whole.len()) {
        add(list, &whole[..size]);
    }
    for length in [0, 1, 11, 12, u32::MAX] {
        let mut whole = whole.clone();
        put(&mut whole, 0, length.to_be_bytes());
        add(list, &whole);
    }
}

/// Splits under the wall's mark and under others: alone, before the wall's own, between them, and with
/// no mark between the image and the messages.
fn add_marks(list: &mut List<()>) {
    let image = image::to_bytes(&l());
    let split = |mark, number, x| message(mark, number, Operation::Split, x);
    for own in [MARK, 0, Mark::MAX] {
        let (first, second) = (split(own, 1, 1.0), split(own, 2, 0.5));
        let start = [&image[..], &own.to_be_bytes()].concat();
        add(list, &[&image[..], &first, &second].concat());
        for other in [0, Mark::MAX, own.wrapping_add(1), own ^ 1 << 63, own.swap_bytes()] {
            let [foreign_first, foreign_second] = [1, 2].map(|number| split(other, number, 0.25));
            add(list, &[&start[..], &foreign_first, &foreign_second].concat());
            add(list, &[&start[..], &foreign_first, &first, &second].concat());
            let between = [&first, &foreign_first, &foreign_second, &second].map(Vec::as_slice);
            add(list, &[&start[..], &between.concat()].concat());
        }
    }
}

/// A trim, so many of its repeats that a split behind them ends where reading does or shortly
/// before that, and a second split, which is then not read or is cut.
fn add_limits(list: &mut List<()>) {
    let mut drawing = t();
    for _ in 0..2 {
        drawing.relations.extend([Relation::Length { line: 6, value: 2.0 }; 3]);
        let mut input = image::to_bytes(&drawing);
        input.extend(MARK.to_be_bytes());
        while input.len() + 2 * message::SIZE <= MAX_INPUT {
            input.extend(message(MARK, 1, Operation::Trim, 0.5));
        }
        input.extend(message(MARK, 2, Operation::Split, 3.0));
        input.extend(message(MARK, 3, Operation::Split, 2.0));
        add(list, &input);
    }
}
