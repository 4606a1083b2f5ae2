//! Which windows, counts and rooms of catch-ups came up, and how they were answered.

use std::collections::BTreeMap;
use std::fmt;
use window_cases::plain::{COUNT_ABOVE, LEFT_WINDOW, SHORT_BUFFER};
use window_cases::{Case, Distance, Room, WindowState};

/// Among so many catch-ups every kind must come up.
const ENOUGH: usize = 20_000;

/// What a case is counted by, what it is there, and how it was answered.
type Kind = (&'static str, &'static str, u32);

const STATES: &str = "window";
const DISTANCES: &str = "wall";
const ROOMS: &str = "room";
const ENDS: &str = "counts";
const FROM_ZERO: &str = "from 0";
const TO_THE_LAST: &str = "to 4294967295";

#[derive(Default)]
pub struct CatchUpCoverage {
    pub cases: usize,
    kinds: BTreeMap<Kind, usize>,
}

impl CatchUpCoverage {
    pub fn add(&mut self, case: &Case, outcome: u32) {
        self.cases += 1;
        let mut count = |row, name| *self.kinds.entry((row, name, outcome)).or_default() += 1;
        count(STATES, case.state.name());
        count(DISTANCES, case.distance().name());
        if let Some(room) = case.room_class() {
            count(ROOMS, room.name());
        }
        if case.wall_count == 0 {
            count(ENDS, FROM_ZERO);
        }
        if case.count == u32::MAX {
            count(ENDS, TO_THE_LAST);
        }
    }

    /// Fails where there were enough cases, and some window, distance, room or end did not come up with an
    /// outcome that it can have.
    pub fn check(&self) -> Result<(), String> {
        if self.cases < ENOUGH {
            return Ok(());
        }
        match kinds().find(|kind| !self.kinds.contains_key(kind)) {
            Some((row, name, outcome)) => {
                Err(format!("none came up: {row} {name}, {}", text(outcome)))
            }
            None => Ok(()),
        }
    }
}

/// All that can come up.
fn kinds() -> impl Iterator<Item = Kind> {
    let states = WindowState::ALL.map(|state| (STATES, state.name(), state_outcomes(state)));
    let distances = Distance::ALL.map(|wall| (DISTANCES, wall.name(), distance_outcomes(wall)));
    let rooms = Room::ALL.map(|room| (ROOMS, room.name(), room_outcomes(room)));
    let ends = [FROM_ZERO, TO_THE_LAST].map(|end| (ENDS, end, &[0, LEFT_WINDOW, SHORT_BUFFER][..]));
    let rows = states.into_iter().chain(distances).chain(rooms).chain(ends);
    rows.flat_map(|(row, name, outcomes)| outcomes.iter().map(move |outcome| (row, name, *outcome)))
}

/// Where none is due every window will do, and is not asked for room.
fn state_outcomes(state: WindowState) -> &'static [u32] {
    let holds_some = ![
        WindowState::Empty,
        WindowState::OtherMark,
        WindowState::Earlier,
        WindowState::Shifted,
        WindowState::Random,
    ]
    .contains(&state);
    match holds_some {
        true => &[0, LEFT_WINDOW, COUNT_ABOVE, SHORT_BUFFER],
        false => &[0, LEFT_WINDOW, COUNT_ABOVE],
    }
}

fn distance_outcomes(distance: Distance) -> &'static [u32] {
    match distance {
        Distance::FarAbove | Distance::OneAbove => &[COUNT_ABOVE],
        Distance::Level => &[0],
        Distance::OneDue | Distance::Some | Distance::AllButOne | Distance::All => {
            &[0, LEFT_WINDOW, SHORT_BUFFER]
        }
        Distance::OneTooMany | Distance::TooMany => &[LEFT_WINDOW],
    }
}

fn room_outcomes(room: Room) -> &'static [u32] {
    match room {
        Room::None | Room::Short | Room::OneByteShort => &[LEFT_WINDOW, SHORT_BUFFER],
        Room::Exact | Room::OneByteMore | Room::More => &[0, LEFT_WINDOW],
    }
}

fn text(outcome: u32) -> String {
    match outcome {
        0 => "accepted".into(),
        number => number.to_string(),
    }
}

impl fmt::Display for CatchUpCoverage {
    fn fmt(&self, f: &mut fmt::Formatter<'_>) -> fmt::Result {
        let mut last = ("", "");
        for ((row, name, outcome), count) in &self.kinds {
            if (*row, *name) != last {
                let end = if last.0.is_empty() { "" } else { "\n" };
                write!(f, "{end}  {row:<8} {name:<17}")?;
                last = (row, name);
            }
            write!(f, " {}:{count}", text(*outcome))?;
        }
        writeln!(f)
    }
}
