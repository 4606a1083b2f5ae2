//! Engine and oracle as calls that take a state and give the next one.

use mulkefi::{Delivery, Desk, Mark, Report, Wall, MESSAGE_SIZE};
use oracle::message::{Edit, Operation};
use oracle::steps::{State, Step};
use std::fmt;
use std::marker::PhantomData;
use window_cases::plain::{slide, slot, Window};

/// All that a call answers and leaves.
#[derive(Clone, PartialEq)]
pub struct Outcome {
    /// 0, or the refusal's number and 65,536 times the place that comes with it.
    pub answer: u32,
    pub old: bool,
    pub report: [u32; 3],
    pub message: Vec<u8>,
    pub state: State,
    /// The desk's; a wall has none.
    pub window: Option<Box<Window>>,
}

impl Outcome {
    pub fn number(&self) -> u32 {
        match (self.answer, self.old) {
            (0, true) => super::coverage::OLD,
            (answer, _) => answer & 0xffff,
        }
    }

    fn refused(refusal: mulkefi::Refusal, state: State, window: Option<Box<Window>>) -> Outcome {
        let place = refusal.place().unwrap_or(0) as u32;
        let answer = u32::from(refusal.number()) + (place << 16);
        Outcome { answer, old: false, report: [0; 3], message: Vec::new(), state, window }
    }
}

impl fmt::Debug for Outcome {
    fn fmt(&self, f: &mut fmt::Formatter<'_>) -> fmt::Result {
        let Outcome { answer, old, report, message, state, window } = self;
        let (number, place) = (answer & 0xffff, answer >> 16);
        write!(
            f,
            "{number}, place {place}, old {old}, report {report:?}, message {message:02x?}, "
        )?;
        let State { image, mark, count } = state;
        write!(f, "mark {mark:016x}, count {count}, image {image:02x?}, window {window:02x?}")
    }
}

pub trait Implementation {
    fn edit(state: &State, window: &Window, edit: &Edit) -> Outcome;
    fn deliver(state: &State, message: &[u8]) -> Outcome;
}

/// The oracle, beside which the window is slid by the plain reading.
pub struct Oracle;

impl Oracle {
    fn outcome(step: Step, message: Vec<u8>, window: Option<Box<Window>>) -> Outcome {
        let Step { answer, old, report, state } = step;
        let [start, end] = report.ends;
        Outcome { answer, old, report: [report.removed, start, end], message, state, window }
    }
}

impl Implementation for Oracle {
    fn edit(state: &State, window: &Window, edit: &Edit) -> Outcome {
        let mut message = vec![0; MESSAGE_SIZE];
        let mut window = Box::new(*window);
        let step = state.edit(edit, &mut message);
        match step.answer {
            0 => slide(&mut window, step.state.count, &message),
            _ => message.clear(),
        }
        Oracle::outcome(step, message, Some(window))
    }

    fn deliver(state: &State, message: &[u8]) -> Outcome {
        Oracle::outcome(state.deliver(message), Vec::new(), None)
    }
}

pub fn numbers(report: Report) -> [u32; 3] {
    [report.removed, report.start, report.end]
}

pub fn edit_of(edit: &Edit) -> mulkefi::Edit {
    let operation = match edit.operation {
        Operation::Trim => mulkefi::Operation::Trim,
        Operation::Split => mulkefi::Operation::Split,
        Operation::Extend => mulkefi::Operation::Extend,
    };
    mulkefi::Edit { operation, curve: edit.curve, x: edit.x, y: edit.y }
}

/// The crate under test.
pub struct Engine;

impl Engine {
    pub fn edit_at(desk: &mut Desk, edit: &Edit) -> Outcome {
        let outcome = desk.edit(&edit_of(edit));
        let (mark, count) = (desk.mark().into(), desk.count());
        let state = State { image: desk.image().to_vec(), mark, count };
        let window = Some(Box::new(*desk.window()));
        match outcome {
            Err(refusal) => Outcome::refused(refusal, state, window),
            Ok(accepted) => {
                let (report, message) = (numbers(accepted.report), accepted.message.to_vec());
                Outcome { answer: 0, old: false, report, message, state, window }
            }
        }
    }

    pub fn deliver_to(wall: &mut Wall, message: &[u8]) -> Outcome {
        let outcome = wall.deliver(message);
        let (mark, count) = (wall.mark().into(), wall.count());
        let state = State { image: wall.image().to_vec(), mark, count };
        let (old, report) = match outcome {
            Err(refusal) => return Outcome::refused(refusal, state, None),
            Ok(Delivery::Old) => (true, [0; 3]),
            Ok(Delivery::Applied(report)) => (false, numbers(report)),
        };
        Outcome { answer: 0, old, report, message: Vec::new(), state, window: None }
    }
}

impl Implementation for Engine {
    fn edit(state: &State, window: &Window, edit: &Edit) -> Outcome {
        match Desk::resume(&state.image, state.mark.into(), state.count, window) {
            Ok(mut desk) => Engine::edit_at(&mut desk, edit),
            Err(refusal) => Outcome::refused(refusal, state.clone(), Some(Box::new(*window))),
        }
    }

    fn deliver(state: &State, message: &[u8]) -> Outcome {
        match Wall::resume(&state.image, state.mark.into(), state.count) {
            Ok(mut wall) => Engine::deliver_to(&mut wall, message),
            Err(refusal) => Outcome::refused(refusal, state.clone(), None),
        }
    }
}

/// A fault in what a call answers.
pub trait Fault {
    fn alter(outcome: &mut Outcome);
}

/// A removed piece's ends reported the wrong way round.
pub struct SwappedEnds;

impl Fault for SwappedEnds {
    fn alter(outcome: &mut Outcome) {
        outcome.report.swap(1, 2);
    }
}

/// No place told with a refusal.
pub struct WithoutPlace;

impl Fault for WithoutPlace {
    fn alter(outcome: &mut Outcome) {
        outcome.answer &= 0xffff;
    }
}

/// An accepted edit's message put into the slot behind its own.
pub struct SlotBehind;

impl Fault for SlotBehind {
    fn alter(outcome: &mut Outcome) {
        if let (0, Some(window)) = (outcome.answer, &mut outcome.window) {
            slide(window, outcome.state.count.wrapping_add(1), &outcome.message);
        }
    }
}

/// The message that a refused edit would have had put into the window.
pub struct SlidesRefused;

impl Fault for SlidesRefused {
    fn alter(outcome: &mut Outcome) {
        if let (1.., Some(window)) = (outcome.answer, &mut outcome.window) {
            let number = outcome.state.count.wrapping_add(1);
            window[slot(number)][0] ^= 1;
        }
    }
}

/// The crate with a fault.
pub struct Planted<F>(PhantomData<F>);

impl<F: Fault> Implementation for Planted<F> {
    fn edit(state: &State, window: &Window, edit: &Edit) -> Outcome {
        let mut outcome = Engine::edit(state, window, edit);
        F::alter(&mut outcome);
        outcome
    }

    fn deliver(state: &State, message: &[u8]) -> Outcome {
        let mut outcome = Engine::deliver(state, message);
        F::alter(&mut outcome);
        outcome
    }
}

/// The crate with a wall that compares the low halves of marks alone.
pub struct LowHalfOfMark;

impl Implementation for LowHalfOfMark {
    fn edit(state: &State, window: &Window, edit: &Edit) -> Outcome {
        Engine::edit(state, window, edit)
    }

    fn deliver(state: &State, message: &[u8]) -> Outcome {
        let bears = Mark::of_message(message).map_or(state.mark, u64::from);
        let mark = if bears as u32 == state.mark as u32 { bears } else { state.mark };
        let mut outcome = Engine::deliver(&State { mark, ..state.clone() }, message);
        outcome.state.mark = state.mark;
        outcome
    }
}
