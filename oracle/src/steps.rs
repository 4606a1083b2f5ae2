//! A desk or wall whose state the caller holds: an image, a mark and a count in, the next ones out. The
//! desk's window is lent to its call.

use crate::call::answer;
use crate::edit::{Refused, Report};
use crate::image;
use crate::message::{Edit, Mark};
use crate::replication::{Delivery, Desk, Replica};
use crate::window::Window;

/// What is handed to a call and comes back from it.
#[derive(Clone, Debug, PartialEq, Eq)]
pub struct State {
    pub image: Vec<u8>,
    pub mark: Mark,
    pub count: u32,
}

/// What a call answers.
#[derive(Clone, Debug, PartialEq, Eq)]
pub struct Step {
    /// 0, or a refusal's number with the place of the first relation not met times 65,536 added.
    pub answer: u32,
    /// Whether a delivery was old, which is no refusal.
    pub old: bool,
    pub report: Report,
    /// As it was, unless an edit was applied.
    pub state: State,
}

impl State {
    fn replica(&self) -> Result<Replica, Refused> {
        Ok(Replica::start_at(&self.image, self.mark, self.count)?)
    }

    fn after(&self, outcome: Result<(Replica, Option<Report>), Refused>) -> Step {
        let answer = answer(&outcome);
        let (state, report) = match outcome {
            Ok((Replica { drawing, mark, count }, report)) => {
                (State { image: image::to_bytes(&drawing), mark, count }, report)
            }
            Err(_) => (self.clone(), Some(Report::default())),
        };
        Step { answer, old: report.is_none(), report: report.unwrap_or_default(), state }
    }

    /// The desk's call, of a caller who has no use for the window.
    pub fn edit(&self, edit: &Edit, out: &mut [u8]) -> Step {
        self.edit_and_keep(edit, out, &mut Window::empty())
    }

    /// The desk's call; an accepted one writes its message to the front of the buffer and into the
    /// window.
    pub fn edit_and_keep(&self, edit: &Edit, out: &mut [u8], window: &mut Window) -> Step {
        let outcome = self.replica().and_then(|replica| {
            let mut desk = Desk { replica, window: window.clone() };
            let report = desk.edit(edit, out)?;
            *window = desk.window;
            Ok((desk.replica, Some(report)))
        });
        self.after(outcome)
    }

    /// The wall's call.
    pub fn deliver(&self, bytes: &[u8]) -> Step {
        let outcome = self.replica().and_then(|mut wall| {
            let report = match wall.deliver(bytes)? {
                Delivery::Old => None,
                Delivery::Applied(report) => Some(report),
            };
            Ok((wall, report))
        });
        self.after(outcome)
    }
}
