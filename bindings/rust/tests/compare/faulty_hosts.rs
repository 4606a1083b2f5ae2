//! Desks and walls with one fault each, which whole halls must notice.

use super::hosts::{DeskHost, DeskMemory, Message, WallHost, WallMemory};
use mulkefi::Report;
use oracle::message::{Edit, Mark};
use window_cases::plain::{self, slot, Window};

/// Catches walls up from the second message after their count.
pub const LEAVES_ONE_OUT: u8 = 0;
pub const IN_FALLING_ORDER: u8 = 1;
/// Refuses by 26 where 64 are due.
pub const HOLDS_63: u8 = 2;
/// Writes the last 64 messages where more are due.
pub const NEVER_REFUSES: u8 = 3;
/// Puts something into the window at a refused edit.
pub const SLIDES_REFUSED: u8 = 4;
/// Leaves its messages in the window when it is resumed without them.
pub const KEEPS_WINDOW: u8 = 5;
pub const ANSWERS_COUNTS_ABOVE: u8 = 6;

pub struct FaultyDesk<const FAULT: u8>(DeskMemory);

impl<const FAULT: u8> DeskHost for FaultyDesk<FAULT> {
    fn start(image: &[u8], mark: Mark, count: u32) -> Result<Self, u32> {
        DeskMemory::start(image, mark, count).map(FaultyDesk)
    }

    fn image(&self) -> &[u8] {
        self.0.image()
    }

    fn count(&self) -> u32 {
        self.0.count()
    }

    fn window(&self) -> &Window {
        self.0.window()
    }

    fn edit(&mut self, edit: &Edit) -> Result<(Message, Report), u32> {
        let outcome = self.0.edit(edit);
        if FAULT == SLIDES_REFUSED && outcome.is_err() {
            let next = slot(self.count().wrapping_add(1));
            self.0.window[next].fill(0xff);
        }
        outcome
    }

    fn catch_up(&self, wall_count: u32) -> Result<Vec<Message>, u32> {
        let due = self.count().saturating_sub(wall_count);
        match FAULT {
            LEAVES_ONE_OUT if due > 0 => self.0.catch_up(wall_count.saturating_add(1)),
            IN_FALLING_ORDER => self.0.catch_up(wall_count).map(|mut messages| {
                messages.reverse();
                messages
            }),
            HOLDS_63 if due == 64 => Err(plain::LEFT_WINDOW),
            NEVER_REFUSES if due > 64 => self.0.catch_up(self.count().saturating_sub(64)),
            ANSWERS_COUNTS_ABOVE if wall_count > self.count() => Ok(Vec::new()),
            _ => self.0.catch_up(wall_count),
        }
    }

    fn catch_up_with_room(&self, wall_count: u32, room: usize) -> Option<u32> {
        self.0.catch_up_with_room(wall_count, room)
    }

    fn resume(&mut self, mark: Mark, window: &Window) -> Result<(), u32> {
        let mut kept = Box::new(*window);
        if FAULT == KEEPS_WINDOW {
            kept.copy_from_slice(&self.0.window[..]);
        }
        self.0.resume(mark, &kept)
    }
}

/// Starts at count 0 whatever its desk's is.
pub const STARTS_AT_ZERO: u8 = 0;
/// Counts one edit less than its image has.
pub const STARTS_BEHIND: u8 = 1;
/// Counts one edit more than its image has.
pub const STARTS_AHEAD: u8 = 2;
/// Takes every message for an old one once it was started at a count.
pub const STANDS_STILL: u8 = 3;
/// Reports what it removes the wrong way round.
pub const SWAPS_ENDS: u8 = 4;

pub struct FaultyWall<const FAULT: u8> {
    wall: WallMemory,
    started: u32,
}

impl<const FAULT: u8> WallHost for FaultyWall<FAULT> {
    fn start(image: &[u8], mark: Mark, count: u32) -> Result<Self, u32> {
        let started = match FAULT {
            STARTS_AT_ZERO => 0,
            STARTS_BEHIND => count.saturating_sub(1),
            STARTS_AHEAD if count > 0 => count.saturating_add(1),
            _ => count,
        };
        let wall = WallMemory::start(image, mark, started)?;
        Ok(FaultyWall { wall, started })
    }

    fn image(&self) -> &[u8] {
        self.wall.image()
    }

    fn count(&self) -> u32 {
        self.wall.count()
    }

    fn deliver(&mut self, message: &[u8]) -> Result<Option<Report>, u32> {
        match FAULT {
            STANDS_STILL if self.started > 0 => Ok(None),
            SWAPS_ENDS => {
                let swapped =
                    |report: Report| Report { start: report.end, end: report.start, ..report };
                Ok(self.wall.deliver(message)?.map(swapped))
            }
            _ => self.wall.deliver(message),
        }
    }
}
