//! One catch-up: a desk's window, count and mark, a wall's count, and the room that is lent.

use crate::distance::{self, Distance};
use crate::plain::{self, Window};
use crate::room::{self, Room};
use crate::state::WindowState;
use oracle::generate::marks;
use oracle::generate::random::Random;
use oracle::message::Mark;
use std::fmt;

pub struct Case {
    pub state: WindowState,
    pub window: Box<Window>,
    pub count: u32,
    pub mark: Mark,
    pub wall_count: u32,
    pub room: usize,
}

impl Case {
    /// The most room that a case has.
    pub const MOST_ROOM: usize = room::MOST;

    pub fn any(random: &mut Random) -> Case {
        // What can be accepted comes more often.
        let some = random.pick(&WindowState::ALL);
        let state = random.pick(&[WindowState::Own, WindowState::Last, some, some, some]);
        let count = distance::count(random);
        let wall_count = distance::wall_count(random, count);
        let room = room::room(random, count.saturating_sub(wall_count) as usize);
        Case::new(random, state, [count, wall_count], room)
    }

    /// A window of this state with the counts of desk and wall, under any mark.
    pub fn new(
        random: &mut Random,
        state: WindowState,
        [count, wall_count]: [u32; 2],
        room: usize,
    ) -> Case {
        let mark = marks::mark(random);
        let window = state.window(random, count, mark, wall_count);
        Case { state, window, count, mark, wall_count, room }
    }

    /// Every window with the counts and rooms next to each limit.
    pub fn about_each_limit(random: &mut Random) -> impl Iterator<Item = Case> + use<'_> {
        let counts = distance::about_each_limit();
        let states = WindowState::ALL.iter();
        let places = states.flat_map(move |state| counts.clone().map(move |pair| (*state, pair)));
        let cases = places.flat_map(|(state, [count, wall_count])| {
            let rooms = room::about_each_limit(count.saturating_sub(wall_count) as usize);
            rooms.map(move |room| (state, [count, wall_count], room))
        });
        cases.map(|(state, counts, room)| Case::new(random, state, counts, room))
    }

    pub fn distance(&self) -> Distance {
        Distance::between(self.count, self.wall_count)
    }

    /// The room beside what the messages due take, where a window can hold them.
    pub fn room_class(&self) -> Option<Room> {
        let due = self.count.checked_sub(self.wall_count)? as usize;
        (due <= plain::MESSAGES).then(|| Room::of(self.room, due))
    }

    /// What the plain reading answers, and what the buffer then holds.
    pub fn expected(&self, before: &[u8]) -> (u32, Vec<u8>) {
        plain::catch_up(&self.window, self.count, self.mark, self.wall_count, before)
    }
}

impl fmt::Debug for Case {
    fn fmt(&self, f: &mut fmt::Formatter<'_>) -> fmt::Result {
        let Case { state, window, count, mark, wall_count, room } = self;
        write!(f, "desk at {count}, mark {mark:016x}, wall at {wall_count}, room {room}, ")?;
        write!(f, "window {}: {window:02x?}", state.name())
    }
}
