//! The wall's host.

use crate::radio::{Radio, Station};
use crate::state::{keep, load, Count, Fallible, State};
use mulkefi::{Delivery, Mark, Refusal, Wall};
use std::fs;
use std::path::{Path, PathBuf};

const TURNS_TO_TELL: usize = 10;

pub struct WallHost {
    /// None before its first start.
    pub wall: Option<Wall>,
    folder: PathBuf,
    is_behind: bool,
    turns: usize,
    /// The refusal of an edit that its desk made.
    pub parted: Option<Refusal>,
    pub seen: Seen,
}

/// How many of what came.
#[derive(Clone, Copy, Default)]
pub struct Seen {
    pub applied: usize,
    pub old: usize,
    pub ahead: usize,
    pub foreign: usize,
    pub unread: usize,
}

/// What a wall tells. A wall without a state tells zeros, and no start has mark 0.
pub struct Told {
    pub mark: Mark,
    pub count: Count,
}

// step: tell
/// The packet of 16 bytes, which is this host's own and no format of the engine.
impl Told {
    pub fn to_bytes(&self) -> [u8; 16] {
        let mut bytes = [0; 16];
        bytes[..8].copy_from_slice(&self.mark.to_bytes());
        bytes[8..].copy_from_slice(&u64::from(self.count).to_be_bytes());
        bytes
    }

    pub fn from_bytes(bytes: &[u8]) -> Option<Told> {
        let bytes: &[u8; 16] = bytes.try_into().ok()?;
        let [mark, count] = [0, 8].map(|at| bytes[at..].first_chunk().copied());
        let count = Count::try_from(u64::from_be_bytes(count?)).ok()?;
        Some(Told { mark: Mark::from(mark?), count })
    }
}
// end

// step: boot wall
/// The wall goes on from what it kept, however old that is; without it, it tells zeros, and gets a start.
fn boot(folder: &Path, screen: &mut String) -> Option<Wall> {
    let kept = load(folder, "wall.state", 0).unwrap_or_else(|sentence| {
        *screen += &format!("wall: {sentence}\n");
        None
    });
    kept.and_then(|state| Wall::resume(&state.image, state.mark, state.count).ok())
}
// end

impl WallHost {
    pub fn boot(folder: &Path, radio: &mut Radio, screen: &mut String) -> WallHost {
        let (wall, seen) = (boot(folder, screen), Seen::default());
        let folder = folder.to_path_buf();
        let mut host = WallHost { wall, folder, is_behind: false, turns: 0, parted: None, seen };
        host.tell(radio);
        host
    }

    /// A power cut: the memory is gone, and the host boots.
    pub fn cut(&mut self, radio: &mut Radio, screen: &mut String) {
        let seen = self.seen;
        *self = WallHost { seen, ..WallHost::boot(&self.folder, radio, screen) };
    }

    // step: deliver
    /// Takes what the radio brings, from whomever. The answer is whether an edit was applied, and the state
    /// is to be kept.
    pub fn deliver(&mut self, message: &[u8]) -> bool {
        let Some(wall) = &mut self.wall else { return false };
        match wall.deliver(message) {
            Ok(Delivery::Applied(_)) => {
                self.seen.applied += 1;
                return true;
            }
            Ok(Delivery::Old) => self.seen.old += 1,
            // 7: tell the count.
            Err(Refusal::Ahead) => {
                self.seen.ahead += 1;
                self.is_behind = true;
            }
            // 28: another desk's, or from before this start.
            Err(Refusal::Foreign) => self.seen.foreign += 1,
            // 1, 2, 6: no desk's message.
            Err(Refusal::Length | Refusal::Version | Refusal::Operation) => self.seen.unread += 1,
            // The desk's edit is refused here: wall and desk have parted, and the desk is to be started
            // with a new mark.
            Err(refusal) => self.parted = Some(refusal),
        }
        false
    }
    // end

    // step: keep wall
    /// A wall that can't keep its state goes on: after a power cut it is further back, and catches up.
    pub fn keep(&self) -> Fallible<()> {
        let Some(wall) = &self.wall else { return Ok(()) };
        let (image, window) = (wall.image().to_vec(), Vec::new());
        let state = State { image, count: wall.count(), mark: wall.mark(), window };
        keep(&self.folder, "wall.state", &state)
            .map_err(|error| format!("wall.state: {error}").into())
    }
    // end

    fn tell(&mut self, radio: &mut Radio) {
        let none = Told { mark: Mark::from(0), count: 0 };
        let of_wall = |wall: &Wall| Told { mark: wall.mark(), count: wall.count() };
        radio.send(Station::Wall, &self.wall.as_ref().map_or(none, of_wall).to_bytes());
        self.is_behind = false;
    }

    // step: take start
    /// A start that has come, and that `load` has tested, takes the place of the wall's own image, count and
    /// mark.
    pub fn take_start(&mut self) -> Fallible<()> {
        let Some(state) = load(&self.folder, "wall.start", 0)? else { return Ok(()) };
        self.wall = Some(Wall::start_at(&state.image, state.mark, state.count)?);
        self.parted = None;
        self.keep()?;
        Ok(fs::remove_file(self.folder.join("wall.start"))?)
    }
    // end

    // step: wall loop
    /// A turn of the wall's loop, every 200 ms: it tells its count in each turn after a refusal by 7, and
    /// else every 2 seconds.
    pub fn turn(&mut self, radio: &mut Radio, screen: &mut String) {
        while let Some(packet) = radio.receive(Station::Wall) {
            if self.deliver(&packet.bytes) {
                self.keep().unwrap_or_else(|error| *screen += &format!("wall: {error}\n"));
            }
        }
        self.take_start().unwrap_or_else(|error| *screen += &format!("wall: {error}\n"));
        self.turns += 1;
        if self.is_behind || self.turns.is_multiple_of(TURNS_TO_TELL) {
            self.tell(radio);
        }
    }
    // end
}
