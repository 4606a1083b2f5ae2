//! The list of edits: calls of every operation on every kind of target, accepted and refused, with
//! what they answer.
//!
//! The input of an entry holds the call and the rest of its answer, all numbers big-endian:
//!
//! | bytes | what |
//! |---|---|
//! | 2 | place of the first relation not met for outcomes 13 and 19, else 0 |
//! | 4 | operation: 1 trim, 2 split, 3 extend, another number is none |
//! | 4 | id of the curve |
//! | 8, 8 | pick: bits of x, bits of y |
//! | 4 | room: how many bytes the caller lends |
//! | 4 | size of the image before the edit |
//! | 4 | size of what the call writes, 0 where it is refused |
//!
//! then the image before the edit, then what the call writes to the front of the lent bytes:
//! removed curve, its start and its end (4 each), and the image after the edit. The entry ends
//! there: its length is 38 and the two sizes.

use super::edit_sorts::{kind_of_target, sort};
use super::List;
use crate::bytes::{f64_at, put, u32_at};
use crate::call::{self, Call};
use crate::drawing::*;
use crate::edit::Refused;
use crate::examples::{curve, l, line, point, t};
use crate::generate::{calls, random::Random};
use crate::message::{Edit, Operation};
use crate::refusal::Refusal;
use std::collections::{BTreeMap, BTreeSet};

pub const HEADER: usize = 38;
/// Generated calls from which the list is chosen.
const CHOICE: usize = 60_000;
/// How large the images of calls may be that are recorded a second time, spoilt.
const SPOILT: usize = 300;

pub fn edits(seed: u64) -> List<()> {
    let mut list = List::new(outcome_of);
    for (drawing, edit) in examples().into_iter().chain(rare()) {
        add(&mut list, &Call::new(&drawing, &edit), usize::MAX);
    }
    add_short_buffers(&mut list);
    let (mut taken, mut spoilt_once) = (BTreeMap::new(), BTreeSet::new());
    let mut random = Random::new(seed);
    for at in 0..CHOICE {
        let call =
            if at % 2 == 0 { calls::cut(&mut random) } else { calls::extension(&mut random) };
        let (sort, wanted, largest) = sort(&call);
        let count = taken.entry(sort).or_insert(0);
        if *count < wanted && call.image.len() <= largest {
            *count += 1;
            add(&mut list, &call, usize::MAX);
        }
        let (Some(operation), Some(kind)) = (call.operation(), kind_of_target(&call)) else {
            continue;
        };
        if call.image.len() <= SPOILT && spoilt_once.insert((operation.code(), kind)) {
            spoilt(&mut random, &call).iter().for_each(|call| add(&mut list, call, usize::MAX));
        }
    }
    list
}

/// How often each outcome came up, by operation (0 where there is none such) and kind of target.
pub fn edit_coverage(list: &List<()>) -> BTreeMap<(u32, u8), BTreeMap<u8, usize>> {
    let mut counts: BTreeMap<_, BTreeMap<_, _>> = BTreeMap::new();
    for (outcome, input) in list.entries() {
        let (call, _) = read(input);
        let operation = call.operation().map_or(0, |operation| operation.code().into());
        let kind = kind_of_target(&call).unwrap_or(0);
        *counts.entry((operation, kind)).or_default().entry(outcome).or_insert(0) += 1;
    }
    counts
}

/// The call of an entry's input, and the room lent to it.
fn read(input: &[u8]) -> (Call, usize) {
    let image = input[HEADER..HEADER + u32_at(input, 30) as usize].to_vec();
    let (operation, curve) = (u32_at(input, 2), u32_at(input, 6));
    let (x, y) = (f64_at(input, 10), f64_at(input, 18));
    (Call { operation, image, curve, x, y }, u32_at(input, 26) as usize)
}

/// The outcome of the call that an entry's input holds.
fn outcome_of(input: &[u8]) -> Result<(), Refusal> {
    let (call, room) = read(input);
    written_by(&call, room).map(|_| ()).map_err(|refused| refused.refusal)
}

/// The bytes that the call writes.
fn written_by(call: &Call, room: usize) -> Result<Vec<u8>, Refused> {
    let (after, report) = call.outcome()?;
    let mut out = vec![0; room];
    call::write(&after, &report, &mut out)?;
    out.truncate(call::size(&after));
    Ok(out)
}

/// Adds a call with as much room as it needs and at most so much.
fn add(list: &mut List<()>, call: &Call, most: usize) {
    let needed = call.outcome().map_or(0, |(after, _)| call::size(&after));
    let room = needed.min(most);
    let outcome = written_by(call, room);
    let place = outcome.as_ref().err().and_then(|refused| refused.place).unwrap_or(0);
    let written = outcome.unwrap_or_default();
    let mut input = vec![0; HEADER];
    put(&mut input, 0, (place as u16).to_be_bytes());
    put(&mut input, 2, call.operation.to_be_bytes());
    put(&mut input, 6, call.curve.to_be_bytes());
    put(&mut input, 10, call.x.to_bits().to_be_bytes());
    put(&mut input, 18, call.y.to_bits().to_be_bytes());
    put(&mut input, 26, (room as u32).to_be_bytes());
    put(&mut input, 30, (call.image.len() as u32).to_be_bytes());
    put(&mut input, 34, (written.len() as u32).to_be_bytes());
    input.extend(&call.image);
    input.extend(&written);
    list.add(input);
}

/// The worked examples' edits.
fn examples() -> Vec<(Drawing, Edit)> {
    let edit = |operation, x, y| Edit { operation, curve: 3, x, y };
    let (trim, split, extend) = (Operation::Trim, Operation::Split, Operation::Extend);
    let mut measured = l();
    measured.relations.push(Relation::Length { line: 3, value: 4.0 });
    let mut apart = t();
    apart.points[1].x = 2.0;
    (apart.points[2].x, apart.points[3].x) = (5.0, 5.0);
    let mut tied = apart.clone();
    tied.points.extend([point(7, 4.0, -1.0), point(8, 6.0, 1.0)]);
    tied.curves.push(line(9, 7, 8));
    tied.next_id = 10;
    vec![
        (l(), edit(split, 1.0, 3.0)),
        (measured, edit(split, 1.0, 3.0)),
        (l(), edit(split, 0.0, 3.0)),
        (t(), edit(trim, 0.5, 0.0)),
        (t(), edit(trim, 3.0, 0.0)),
        (l(), edit(trim, 1.0, 0.0)),
        (apart.clone(), edit(extend, 2.0, 0.0)),
        (apart, edit(extend, 0.0, 0.0)),
        (tied, edit(extend, 2.0, 0.0)),
    ]
}

/// Splits with outcomes that few generated ones have.
fn rare() -> [(Drawing, Edit); 4] {
    let split = |x| Edit { operation: Operation::Split, curve: 3, x, y: 0.0 };
    [
        (bulging(), split(MAX_COORDINATE)),
        (endless(Id::MAX, 1), split(1.0)),
        (endless(Id::MAX - 1, 1), split(1.0)),
        (endless(1000, MAX_CURVES), split(1.0)),
    ]
}

/// The line of `l` without ends, among so many curves.
fn endless(next_id: Id, curves: usize) -> Drawing {
    let mut drawing = l();
    drawing.curves.extend((4..).map(|id| line(id, 1, 2)).take(curves - 1));
    drawing.curves[0].infinite = true;
    drawing.next_id = next_id;
    drawing
}

/// An arc between good points that runs past the greatest coordinate.
fn bulging() -> Drawing {
    let c = MAX_COORDINATE - 1.0;
    let points = vec![point(1, c, 0.0), point(2, c, -5.0), point(4, c, 5.0)];
    let curves = vec![curve(3, CurveKind::Arc { c: 1, a: 2, b: 4 })];
    Drawing { next_id: 5, points, curves, relations: vec![] }
}

/// The same call with picks that are none, and with an operation that is none.
fn spoilt(random: &mut Random, call: &Call) -> [Call; 3] {
    const NONE: [f64; 4] = [f64::NAN, f64::INFINITY, f64::NEG_INFINITY, -1_000_000.1];
    [
        Call { x: random.pick(&NONE), ..call.clone() },
        Call { y: random.pick(&NONE), ..call.clone() },
        Call { operation: random.pick(&[0, 4, 257, 1 << 16, u32::MAX]), ..call.clone() },
    ]
}

/// Accepted edits with a buffer one byte short, of a report's size, and of none.
fn add_short_buffers(list: &mut List<()>) {
    for (drawing, edit) in examples() {
        let call = Call::new(&drawing, &edit);
        let needed = call.outcome().map_or(1, |(after, _)| call::size(&after));
        for room in [0, call::REPORT_SIZE - 1, call::REPORT_SIZE, needed - 1] {
            add(list, &call, room);
        }
    }
}
