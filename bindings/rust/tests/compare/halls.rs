//! Whole halls: a desk with any list of edits, and walls that lose messages, hear them again, out of order
//! and with foreign ones between, catch up by the desk's window, and are started again. After every delivery
//! and every start a wall is what its desk was after as many edits.

use super::families::{as_reported, DeviceFamilies};
use super::faulty_hosts::*;
use super::hall_counts::HallCounts;
use super::hall_edits;
use super::hosts::{DeskHost, DeskMemory, Message, WallHost, WallMemory};
use mulkefi::message::{MARK_AT, NUMBER_AT};
use mulkefi::{Desk, Report, Wall, MESSAGE_SIZE};
use oracle::drawing::{Drawing, Id};
use oracle::generate::{bridges, marks, random::Random, rings};
use oracle::image;
use oracle::message::{self, Mark};
use std::ops::Range;
use window_cases::plain::{self, Window};

/// In so many halls everything must come up.
const ENOUGH: usize = 200;
const FOREIGN: u32 = 28;
const AHEAD: u32 = 7;

/// Half of the halls by the C calls on memory of the host's, half by the crate.
pub fn check(random: &mut Random, halls: usize, seen: &mut HallCounts) -> Result<(), String> {
    for number in 0..halls {
        let first = first_count(random);
        let followed = match number % 2 {
            0 => follow::<DeskMemory, WallMemory>(random, first, seen),
            _ => follow::<Desk, Wall>(random, first, seen),
        };
        followed.map_err(|fault| format!("hall {number}: {fault}"))?;
    }
    seen.check(ENOUGH)
}

/// The check must be able to fail.
pub fn planted_faults_are_seen() -> Result<(), String> {
    is_seen::<FaultyDesk<LEAVES_ONE_OUT>, WallMemory>("a message left out")?;
    is_seen::<FaultyDesk<IN_FALLING_ORDER>, WallMemory>("falling order")?;
    is_seen::<FaultyDesk<HOLDS_63>, WallMemory>("a window of 63")?;
    is_seen::<FaultyDesk<NEVER_REFUSES>, WallMemory>("no 26")?;
    is_seen::<FaultyDesk<SLIDES_REFUSED>, WallMemory>("slid by a refused edit")?;
    is_seen::<FaultyDesk<KEEPS_WINDOW>, WallMemory>("a window that was lost")?;
    is_seen::<FaultyDesk<ANSWERS_COUNTS_ABOVE>, WallMemory>("no 27")?;
    is_seen::<DeskMemory, FaultyWall<STARTS_AT_ZERO>>("a start at 0")?;
    is_seen::<DeskMemory, FaultyWall<STARTS_BEHIND>>("a start one behind")?;
    is_seen::<DeskMemory, FaultyWall<STARTS_AHEAD>>("a start one ahead")?;
    is_seen::<DeskMemory, FaultyWall<STANDS_STILL>>("a wall that stands still")?;
    is_seen::<DeskMemory, FaultyWall<SWAPS_ENDS>>("ends swapped")?;
    println!("planted faults of halls: seen");
    Ok(())
}

fn is_seen<D: DeskHost, W: WallHost>(name: &str) -> Result<(), String> {
    let (random, seen) = (&mut Random::new(3), &mut HallCounts::default());
    match (0..ENOUGH).try_for_each(|_| follow::<D, W>(random, 0, seen)) {
        Ok(()) => Err(format!("a planted fault was not seen: {name}")),
        Err(_) => Ok(()),
    }
}

/// The desk's count at its start: mostly 0, now and then any, or so large that edits use it up.
fn first_count(random: &mut Random) -> u32 {
    let (any, last) = (random.bits() as u32, u32::MAX - random.below(160) as u32);
    random.weighted(&[(12, 0), (1, any), (2, last)])
}

/// One hall from its start to its end.
fn follow<D: DeskHost, W: WallHost>(
    random: &mut Random,
    first: u32,
    seen: &mut HallCounts,
) -> Result<(), String> {
    let start = match random.one_in(4) {
        true => bridges::any_drawing(random),
        false => rings::drawing(random),
    };
    let steps = random.pick(&[20, 60, 120, 240, 400]);
    let mut hall = Hall::<D, W>::start(random, &start, first, steps)?;
    for step in 0..steps {
        hall.step(random, step, seen)?;
    }
    hall.end(random, seen)
}

/// An accepted edit.
struct Written {
    message: Message,
    target: Id,
    report: Report,
}

/// A desk, its walls, and what is known of them.
struct Hall<D, W> {
    mark: Mark,
    /// The desk's count at its start.
    first: u32,
    desk: D,
    at_desk: DeviceFamilies,
    /// The desk's images at its start and after each accepted edit.
    images: Vec<Vec<u8>>,
    written: Vec<Written>,
    /// By the plain reading.
    window: Box<Window>,
    /// The count at which the desk last went on with a window of zeros.
    window_since: u32,
    walls: Vec<Follower<W>>,
}

/// A wall since its last start.
struct Follower<W> {
    wall: W,
    /// The count at that start.
    started: u32,
    starts: usize,
    reports: Vec<Report>,
    families: DeviceFamilies,
    /// The steps during which nothing comes to it.
    shut: Range<usize>,
}

impl<W: WallHost> Follower<W> {
    /// A wall that is started from its desk's image and count.
    fn start(image: &[u8], mark: Mark, count: u32, shut: Range<usize>) -> Result<Self, String> {
        let wall = W::start(image, mark, count);
        let wall = wall.map_err(|number| format!("a desk's image is refused by {number}"))?;
        let drawing = image::read(image).map_err(|refusal| format!("{refusal:?}"))?;
        let families = DeviceFamilies::start("wall", &drawing, count, as_reported)?;
        Ok(Follower { wall, started: count, starts: 0, reports: Vec::new(), families, shut })
    }
}

impl<D: DeskHost, W: WallHost> Hall<D, W> {
    /// One to three walls, some of which hear nothing for a long time.
    fn start(
        random: &mut Random,
        start: &Drawing,
        first: u32,
        steps: usize,
    ) -> Result<Self, String> {
        let (image, mark) = (image::to_bytes(start), marks::mark(random));
        let desk = D::start(&image, mark, first);
        let walls = (0..1 + random.below(3)).map(|_| {
            let from = random.below(steps);
            let until = if random.one_in(2) { from + steps * 3 / 4 } else { from };
            Follower::start(&image, mark, first, from..until)
        });
        let hall = Hall {
            mark,
            first,
            walls: walls.collect::<Result<_, _>>()?,
            desk: desk.map_err(|number| format!("a good image is refused by {number}"))?,
            at_desk: DeviceFamilies::start("desk", start, first, as_reported)?,
            images: vec![image],
            written: Vec::new(),
            window: Box::new([0; plain::SIZE]),
            window_since: first,
        };
        (0..hall.walls.len()).try_for_each(|at| hall.check_wall(at, 0))?;
        Ok(hall)
    }

    /// An edit at the desk, a message to a wall, a catch-up or a start.
    fn step(
        &mut self,
        random: &mut Random,
        step: usize,
        seen: &mut HallCounts,
    ) -> Result<(), String> {
        let at = random.below(self.walls.len());
        let is_shut = self.walls[at].shut.contains(&step);
        let due = self.written.len() - self.place(self.walls[at].wall.count());
        // Just when a wall has all that a window holds to catch up with, or one too many.
        if [plain::MESSAGES, plain::MESSAGES + 1].contains(&due) && random.one_in(3) {
            return self.catch_up(random, at, seen);
        }
        match random.below(32) {
            ..20 => self.ask(random, seen),
            20 => self.resume(random, seen),
            21 => self.ask_above(random, seen),
            _ if is_shut => Ok(()),
            22..26 => {
                let place = self.some_place(random, at);
                self.deliver(at, place, seen)
            }
            26 | 27 => self.deliver_foreign(random, at, seen),
            28 if random.one_in(3) => {
                seen.other_starts += 1;
                self.start_again(at)
            }
            28 => Ok(()),
            _ => self.catch_up(random, at, seen),
        }
    }

    /// In three halls of four every wall at last asks for what is due.
    fn end(&mut self, random: &mut Random, seen: &mut HallCounts) -> Result<(), String> {
        let (image, count) = (self.desk.image().to_vec(), self.desk.count());
        if !random.one_in(4) {
            for at in 0..self.walls.len() {
                match self.ask_desk(at, seen)? {
                    Some(due) => self.deliver_all(at, due, seen)?,
                    None => {
                        seen.starts_after_26 += 1;
                        self.start_again(at)?;
                    }
                }
                if (self.walls[at].wall.image(), self.walls[at].wall.count()) != (&image, count) {
                    return Err("a wall that has all is not level with its desk".into());
                }
            }
        }
        seen.halls += 1;
        seen.past_the_window += usize::from(self.written.len() > plain::MESSAGES);
        seen.at_desks.add(&self.at_desk.counts);
        for Follower { families, starts, .. } in &self.walls {
            seen.at_walls.add(&families.counts);
            seen.most_starts = seen.most_starts.max(*starts);
        }
        Ok(())
    }

    /// The desk is asked for an edit. Its message has the edit, the mark and the new count; the window slides
    /// by it, and by nothing else.
    fn ask(&mut self, random: &mut Random, seen: &mut HallCounts) -> Result<(), String> {
        let edit = hall_edits::edit(random, &self.at_desk.drawing, &self.at_desk.families);
        seen.asked += 1;
        let applied = match self.desk.edit(&edit) {
            Err(_) => None,
            Ok((message, report)) => {
                seen.accepted += 1;
                let number = self.desk.count();
                if message != message::to_bytes(&message::Message { number, edit }, self.mark) {
                    return Err(format!("{edit:?} at {number} has the message {message:02x?}"));
                }
                plain::slide(&mut self.window, number, &message);
                self.written.push(Written { message, target: edit.curve, report });
                self.images.push(self.desk.image().to_vec());
                Some((edit.curve, report))
            }
        };
        if self.desk.window() != &*self.window {
            return Err(format!("after {edit:?} the window is not that of the last messages"));
        }
        if self.images.last().is_none_or(|image| image != self.desk.image()) {
            return Err(format!("{edit:?} was refused, and altered the image"));
        }
        self.at_desk.check((self.desk.image(), self.desk.count()), applied)
    }

    /// The desk is put away and goes on as it was left, now and then with a window of zeros.
    fn resume(&mut self, random: &mut Random, seen: &mut HallCounts) -> Result<(), String> {
        seen.resumed += 1;
        if random.one_in(40) {
            seen.windows_lost += 1;
            self.window.fill(0);
            self.window_since = self.desk.count();
        }
        let resumed = self.desk.resume(self.mark, &self.window);
        resumed.map_err(|number| format!("a desk's image is refused by {number}"))
    }

    /// A wall's count that is above the desk's.
    fn ask_above(&mut self, random: &mut Random, seen: &mut HallCounts) -> Result<(), String> {
        let by = random.pick(&[1, 1, 2, 64, 65, u32::MAX]);
        let above = self.desk.count().saturating_add(by);
        if above == self.desk.count() {
            return Ok(());
        }
        seen.catch_ups.count_above += 1;
        match self.desk.catch_up(above) {
            Err(plain::COUNT_ABOVE) => Ok(()),
            other => Err(format!("{other:?} to a count that is {by} above")),
        }
    }

    /// The place among the messages written of one that comes to a wall: mostly the one that it waits for.
    fn some_place(&self, random: &mut Random, at: usize) -> usize {
        let next = self.place(self.walls[at].wall.count());
        let any = random.below(self.written.len() + 1);
        random.pick(&[next, next, next, any, any, next + 1, next.saturating_sub(1)])
    }

    /// How many messages were written when the desk had this count.
    fn place(&self, count: u32) -> usize {
        count.wrapping_sub(self.first) as usize
    }

    /// Brings a wall the message at a place among those written, if there is one.
    fn deliver(&mut self, at: usize, place: usize, seen: &mut HallCounts) -> Result<(), String> {
        let next = self.place(self.walls[at].wall.count());
        let Some(Written { message, target, report }) = self.written.get(place) else {
            return Ok(());
        };
        let Follower { wall, reports, families, started, .. } = &mut self.walls[at];
        let outcome = wall.deliver(message);
        let expected = match place {
            place if place < next => Ok(None),
            place if place == next => Ok(Some(*report)),
            _ => Err(AHEAD),
        };
        if outcome != expected {
            return Err(format!(
                "{outcome:?} to message {place} of a wall at {next}, not {expected:?}"
            ));
        }
        match outcome {
            Ok(Some(report)) => {
                seen.applied += 1;
                reports.push(report);
                families.check((wall.image(), wall.count()), Some((*target, report)))?;
            }
            Ok(None) => {
                seen.old += 1;
                let started = started.wrapping_sub(self.first) as usize;
                seen.before_start += usize::from(place < started);
            }
            Err(_) => seen.ahead += 1,
        }
        self.check_wall(at, next + usize::from(place == next))
    }

    /// Brings a wall one of the messages written, under the mark of another desk.
    fn deliver_foreign(
        &mut self,
        random: &mut Random,
        at: usize,
        seen: &mut HallCounts,
    ) -> Result<(), String> {
        let place = self.some_place(random, at);
        let next = self.place(self.walls[at].wall.count());
        let Some(mut message) = self.written.get(place).map(|written| written.message) else {
            return Ok(());
        };
        let foreign = marks::foreign(random, self.mark);
        message[MARK_AT..NUMBER_AT].copy_from_slice(&foreign.to_be_bytes());
        match self.walls[at].wall.deliver(&message) {
            Err(FOREIGN) => seen.foreign += 1,
            outcome => return Err(format!("{outcome:?} to a message with a foreign mark")),
        }
        self.check_wall(at, next)
    }

    /// A wall has so many of the desk's edits, its image is the desk's after these, and its reports since its
    /// start are the desk's.
    fn check_wall(&self, at: usize, edits: usize) -> Result<(), String> {
        let Follower { wall, started, reports, .. } = &self.walls[at];
        let (count, started) = (self.place(wall.count()), self.place(*started));
        let fault = |what: &str| Err(format!("a wall started at {started}, at {count}: {what}"));
        if count != edits || count < started {
            return fault(&format!("its count is not {edits}"));
        }
        if self.images.get(count).is_none_or(|image| image != wall.image()) {
            return fault("its image is not its desk's after as many edits");
        }
        let told = self.written[started..count].iter().map(|written| written.report);
        if !told.eq(reports.iter().copied()) {
            return fault("its reports since its start are not its desk's");
        }
        Ok(())
    }

    /// Starts a wall again from the desk's present image and count.
    fn start_again(&mut self, at: usize) -> Result<(), String> {
        let (image, count) = (self.desk.image().to_vec(), self.desk.count());
        let Follower { starts, shut, .. } = &self.walls[at];
        let (starts, shut) = (starts + 1, shut.clone());
        self.walls[at] = Follower { starts, ..Follower::start(&image, self.mark, count, shut)? };
        self.check_wall(at, self.written.len())
    }

    /// A wall asks for what is due. Where that has left the window, it is mostly started again; else what was
    /// written comes to it, as it is or by a bad radio.
    fn catch_up(
        &mut self,
        random: &mut Random,
        at: usize,
        seen: &mut HallCounts,
    ) -> Result<(), String> {
        let next = self.place(self.walls[at].wall.count());
        self.try_rooms(random, at, seen)?;
        match self.ask_desk(at, seen)? {
            None if random.one_in(10) => Ok(()),
            None => {
                seen.starts_after_26 += 1;
                self.start_again(at)
            }
            Some(due) if random.one_in(2) => self.deliver_all(at, due, seen),
            Some(due) => {
                for _ in 0..due {
                    match random.below(8) {
                        0 => self.deliver_foreign(random, at, seen)?,
                        1 => {}
                        _ => {
                            let place = next + random.below(due);
                            let following = self.place(self.walls[at].wall.count());
                            let place = random.pick(&[following, following, place]);
                            self.deliver(at, place, seen)?;
                        }
                    }
                }
                Ok(())
            }
        }
    }

    /// Asks the desk for what is due to a wall: how many messages were written, or none for 26.
    fn ask_desk(&mut self, at: usize, seen: &mut HallCounts) -> Result<Option<usize>, String> {
        let next = self.place(self.walls[at].wall.count());
        let due = self.written.len() - next;
        let held = self.place(self.desk.count()) - self.place(self.window_since);
        let is_held = due <= held.min(plain::MESSAGES);
        match self.desk.catch_up(self.walls[at].wall.count()) {
            Err(plain::LEFT_WINDOW) if !is_held => {
                seen.catch_ups.left_window += 1;
                seen.catch_ups.too_many += usize::from(due > plain::MESSAGES);
                Ok(None)
            }
            Ok(messages) if is_held => {
                let written = self.written[next..].iter().map(|written| written.message);
                if !written.eq(messages) {
                    return Err(format!("not the {due} messages after {next} were written"));
                }
                match due {
                    0 => seen.catch_ups.none_due += 1,
                    _ => seen.catch_ups.written += 1,
                }
                seen.catch_ups.messages += due;
                seen.catch_ups.all_64 += usize::from(due == plain::MESSAGES);
                Ok(Some(due))
            }
            other => Err(format!("{other:?} where {due} are due and {held} were written")),
        }
    }

    /// Rooms that are short for what is due.
    fn try_rooms(
        &mut self,
        random: &mut Random,
        at: usize,
        seen: &mut HallCounts,
    ) -> Result<(), String> {
        let count = self.walls[at].wall.count();
        let due = self.written.len() - self.place(count);
        let room = MESSAGE_SIZE * random.below(due + 1) + random.below(MESSAGE_SIZE);
        let (expected, _) =
            plain::catch_up(&self.window, self.desk.count(), self.mark, count, &vec![0; room]);
        match self.desk.catch_up_with_room(count, room) {
            Some(answer) if answer == expected => {
                seen.catch_ups.short += usize::from(answer == plain::SHORT_BUFFER);
                Ok(())
            }
            None => Ok(()),
            Some(answer) => Err(format!("{answer} with room {room} for {due}, not {expected}")),
        }
    }

    /// Just the messages that a catch-up wrote come to a wall, which is then level with its desk.
    fn deliver_all(&mut self, at: usize, due: usize, seen: &mut HallCounts) -> Result<(), String> {
        let next = self.place(self.walls[at].wall.count());
        (next..next + due).try_for_each(|place| self.deliver(at, place, seen))?;
        seen.catch_ups.level += usize::from(due > 0);
        let wall = &self.walls[at].wall;
        match (wall.image(), wall.count()) == (self.desk.image(), self.desk.count()) {
            true => Ok(()),
            false => Err("a wall that has caught up is not level with its desk".into()),
        }
    }
}
