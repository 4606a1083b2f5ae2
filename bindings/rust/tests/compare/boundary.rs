//! The C interface itself, with rooms that are ample, exact or short and operations that are none.

use super::coverage::{Coverage, OLD};
use super::deliveries;
use mulkefi::raw;
use oracle::call::Call;
use oracle::generate::{calls, marks, random::Random};
use oracle::image;
use oracle::message::{self, Edit, Operation, OPERATION_AT};
use oracle::refusal::{number_of, Refusal};
use oracle::steps::{State, Step};
use oracle::unmet::Unmet;
use window_cases::plain::{slide, Window};
use window_cases::WindowState;

/// Counts before a call, the messages after which stand in the first, in the last and in other slots.
const COUNTS: [u32; 6] = [0, 41, 62, 63, 64, 1 << 20];
/// What buffers hold before a call.
const FILL: u8 = 0xa5;

/// An edit at the desk, or bytes that come to the wall.
#[derive(Debug)]
struct Case {
    call: Call,
    state: State,
    delivered: Option<Vec<u8>>,
}

/// All that was lent, after a call.
#[derive(Clone, Debug, PartialEq)]
struct Memory {
    buffer: Vec<u8>,
    message: Vec<u8>,
    /// The desk's, which a wall's call is not lent.
    window: Box<Window>,
    answer: [u32; 5],
}

pub fn compare(random: &mut Random, count: usize, seen: &mut Coverage) -> Result<(), String> {
    for _ in 0..count {
        let case = case(random);
        let memory = memory(random, &case);
        let expected = by_oracle(&case, &memory);
        let found = by_engine(&case, memory.clone());
        if expected != found {
            return Err(format!("{case:?}, {memory:?}\n  oracle {expected:?}\n  engine {found:?}"));
        }
        let number = match expected {
            (0, Memory { answer: [count, ..], .. }) if count == case.state.count => OLD,
            (answered, _) => answered & 0xffff,
        };
        seen.add(if case.delivered.is_none() { "desk" } else { "wall" }, number);
        if let (13 | 19, Some(unmet)) = (number, Unmet::of_call(&case.call)) {
            seen.add_place(&unmet);
        }
        if let Some(bytes) = &case.delivered {
            deliveries::add(bytes, &case.state, seen)?;
        }
    }
    Ok(())
}

fn case(random: &mut Random) -> Case {
    let call = if random.one_in(2) { calls::cut(random) } else { calls::extension(random) };
    let (mark, count) = (marks::mark(random), random.pick(&COUNTS));
    let state = State { image: call.image.clone(), mark, count };
    let delivered = random.one_in(2).then(|| delivered(random, &call, &state));
    Case { call, state, delivered }
}

/// A message of the call's edit, also where its operation is none.
fn delivered(random: &mut Random, call: &Call, state: &State) -> Vec<u8> {
    let operation = call.operation().unwrap_or(Operation::Trim);
    let edit = Edit { operation, curve: call.curve, x: call.x, y: call.y };
    let mut bytes = deliveries::bytes(random, state, edit);
    if let (None, Some(code)) = (call.operation(), bytes.get_mut(OPERATION_AT)) {
        *code = call.operation as u8;
    }
    bytes
}

/// Room for the image that will be there, one byte less or more, or just the image that is there; any
/// window.
fn memory(random: &mut Random, Case { call, state, .. }: &Case) -> Memory {
    let held = call.image.len();
    let after = call.outcome().map_or(held, |(drawing, _)| image::size(&drawing));
    let exact = after.max(held);
    let short = after.saturating_sub(1).max(held);
    let room = random.pick(&[exact, exact, short, held, exact + 1, held + 300, image::MAX_SIZE]);
    let mut buffer = vec![FILL; room.max(held)];
    buffer[..held].copy_from_slice(&call.image);
    let size = message::SIZE;
    let lent = random.weighted(&[(12, size), (2, size + 1), (2, 64), (1, size - 1), (1, 0)]);
    let State { mark, count, .. } = *state;
    let window = random.pick(&WindowState::ALL).window(random, count, mark, count);
    Memory { buffer, message: vec![FILL; lent], window, answer: [7; 5] }
}

/// What the oracle expects, in the order that the interface has: image, operation, edit, then room.
fn by_oracle(case: &Case, before: &Memory) -> (u32, Memory) {
    let Case { call, state, delivered } = case;
    if let number @ 1.. = number_of(&image::read(&call.image)) {
        return (number.into(), before.clone());
    }
    let mut after = before.clone();
    let step = match (delivered, call.edit()) {
        (Some(bytes), _) => state.deliver(bytes),
        (None, None) => return (Refusal::Operation.number().into(), after),
        (None, Some(edit)) => state.edit(&edit, &mut after.message),
    };
    let Step { answer, report, state, .. } = step;
    if answer != 0 {
        return (answer, before.clone());
    }
    let Some(front) = after.buffer.get_mut(..state.image.len()) else {
        return (Refusal::Buffer.number().into(), before.clone());
    };
    front.copy_from_slice(&state.image);
    if delivered.is_none() {
        slide(&mut after.window, state.count, &after.message[..message::SIZE]);
    }
    let [start, end] = report.ends;
    after.answer = [state.count, state.image.len() as u32, report.removed, start, end];
    (0, after)
}

fn by_engine(case: &Case, mut memory: Memory) -> (u32, Memory) {
    let Case { call, state: State { image, mark, count }, delivered } = case;
    let Call { operation, curve, x, y, .. } = *call;
    let (len, mark, count) = (image.len(), *mark, *count);
    let Memory { buffer, message, window, answer } = &mut memory;
    let (bytes, room, answer) = (buffer.as_mut_ptr(), buffer.len(), answer.as_mut_ptr());
    // SAFETY: all that is lent is apart, and its lengths are its own; the window has the bytes of one.
    let number = unsafe {
        match delivered {
            None => {
                let (out, lent, window) =
                    (message.as_mut_ptr(), message.len(), window.as_mut_ptr());
                raw::mulkefi_desk_edit(
                    bytes, room, len, count, mark, operation, curve, x, y, out, lent, window,
                    answer,
                )
            }
            Some(came) => {
                let (came, size) = (came.as_ptr(), came.len());
                raw::mulkefi_wall_deliver(bytes, room, len, count, mark, came, size, answer)
            }
        }
    };
    (number, memory)
}
