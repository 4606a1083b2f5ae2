//! Single calls at desk and wall.

use super::coverage::Coverage;
use super::deliveries;
use super::implementations::{Implementation, Outcome};
use oracle::generate::random::Random;
use oracle::generate::{calls, marks};
use oracle::image;
use oracle::message::{self, Edit, Operation};
use oracle::steps::State;
use oracle::unmet::Unmet;
use window_cases::plain::Window;
use window_cases::WindowState;

#[derive(Debug)]
pub enum Asked {
    /// At a desk with this window.
    Edit(Edit, Box<Window>),
    Deliver(Vec<u8>),
}

#[derive(Debug)]
pub struct Case {
    state: State,
    asked: Asked,
}

impl Case {
    pub fn outcome_of<I: Implementation>(&self) -> Outcome {
        match &self.asked {
            Asked::Edit(edit, window) => I::edit(&self.state, window, edit),
            Asked::Deliver(message) => I::deliver(&self.state, message),
        }
    }

    /// The edit that is asked for; of a message, if it can be read.
    fn edit(&self) -> Option<Edit> {
        match &self.asked {
            Asked::Edit(edit, _) => Some(*edit),
            Asked::Deliver(bytes) => {
                message::read(bytes, self.state.mark).ok().map(|read| read.edit)
            }
        }
    }

    /// Counts the outcome, and what was delivered.
    pub fn add(&self, outcome: &Outcome, seen: &mut Coverage) -> Result<(), String> {
        seen.add(self.name(), outcome.number());
        if let (13 | 19, Some(unmet)) = (outcome.number(), self.unmet()) {
            seen.add_place(&unmet);
        }
        match &self.asked {
            Asked::Edit(..) => Ok(()),
            Asked::Deliver(bytes) => deliveries::add(bytes, &self.state, seen),
        }
    }

    /// The relations that are not met where the edit is refused for them.
    fn unmet(&self) -> Option<Unmet> {
        Unmet::of(&image::read(&self.state.image).ok()?, &self.edit()?)
    }

    /// The operation, if there is one.
    fn name(&self) -> &'static str {
        match self.edit().map(|edit| edit.operation) {
            None => "none",
            Some(Operation::Trim) => "trim",
            Some(Operation::Split) => "split",
            Some(Operation::Extend) => "extend",
        }
    }
}

/// A state and an edit of it, at times of a damaged image or a curve that is not there.
fn edit_of_state(random: &mut Random) -> (State, Edit) {
    let call = if random.one_in(2) { calls::cut(random) } else { calls::extension(random) };
    let operation = call.operation().unwrap_or(Operation::Trim);
    let edit = Edit { operation, curve: call.curve, x: call.x, y: call.y };
    let any = random.bits() as u32;
    let count = random.weighted(&[(8, 0), (8, 7), (4, any), (1, u32::MAX), (1, u32::MAX - 1)]);
    (State { image: call.image, mark: marks::mark(random), count }, edit)
}

pub fn desk(random: &mut Random) -> Case {
    let (state, edit) = edit_of_state(random);
    let window = random.pick(&WindowState::ALL);
    let window = window.window(random, state.count, state.mark, state.count);
    Case { state, asked: Asked::Edit(edit, window) }
}

pub fn wall(random: &mut Random) -> Case {
    let (state, edit) = edit_of_state(random);
    let bytes = deliveries::bytes(random, &state, edit);
    Case { state, asked: Asked::Deliver(bytes) }
}
