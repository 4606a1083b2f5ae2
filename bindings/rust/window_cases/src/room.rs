//! The room that is lent for what is due.

use crate::plain::{MESSAGES, SIZE};
use oracle::generate::random::Random;
use oracle::message;

/// How much is lent beside what the messages due take.
#[derive(Clone, Copy, Debug, PartialEq, Eq, PartialOrd, Ord)]
pub enum Room {
    None,
    Short,
    OneByteShort,
    Exact,
    OneByteMore,
    More,
}

/// No case has more.
pub const MOST: usize = SIZE + 4 * message::SIZE;

impl Room {
    pub const ALL: [Room; 6] =
        [Room::None, Room::Short, Room::OneByteShort, Room::Exact, Room::OneByteMore, Room::More];

    pub fn of(room: usize, due: usize) -> Room {
        let needed = message::SIZE * due;
        match room {
            room if room == needed => Room::Exact,
            0 => Room::None,
            room if room == needed + 1 => Room::OneByteMore,
            room if room > needed => Room::More,
            room if room + 1 == needed => Room::OneByteShort,
            _ => Room::Short,
        }
    }

    pub fn name(self) -> &'static str {
        match self {
            Room::None => "no room",
            Room::Short => "short",
            Room::OneByteShort => "one byte short",
            Room::Exact => "exact",
            Room::OneByteMore => "one byte more",
            Room::More => "more",
        }
    }
}

/// Rooms next to what so many messages take, and next to none and to a whole window's.
pub fn about_each_limit(due: usize) -> impl Iterator<Item = usize> {
    let needed = message::SIZE * due.min(MESSAGES + 2);
    let short = [0, needed.saturating_sub(message::SIZE), needed.saturating_sub(1)];
    let mut rooms =
        [short, [needed, needed + 1, needed + message::SIZE], [SIZE - 1, SIZE, SIZE + 1]].concat();
    rooms.sort();
    rooms.dedup();
    rooms.into_iter().filter(|room| *room <= MOST)
}

/// The room for a catch-up by so many messages: mostly about what they take. Where a window does not hold so
/// many, or none is due, it is any.
pub fn room(random: &mut Random, due: usize) -> usize {
    let needed = message::SIZE * due.min(MESSAGES + 1);
    let (any, messages) = (random.below(MOST + 1), message::SIZE * random.below(MESSAGES + 2));
    let short = needed.saturating_sub(message::SIZE);
    random
        .weighted(&[
            (8, needed),
            (3, needed.saturating_sub(1)),
            (3, needed + 1),
            (2, short),
            (2, needed + message::SIZE),
            (2, SIZE),
            (1, SIZE - 1),
            (1, messages),
            (1, any),
            (1, 0),
        ])
        .min(MOST)
}
