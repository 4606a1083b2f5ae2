//! One bridge's desk and wall. The hall's radio lies between them, and the wall's door, which is shut at times.

use crate::bridges::Bridge;
use crate::edits;
use crate::first_unmet::{first_unmet, first_unmet_after};
use crate::highlight::Highlight;
use crate::radio::Message;
use crate::random::Random;
use crate::rings::{RingCounts, Rings};
use crate::tally::Tally;
use mulkefi::message::CURVE_AT;
use mulkefi::{
    read, Delivery, Desk, Drawing, Edit, Id, Mark, Refusal, Report, Stroke, Wall, WINDOW_MESSAGES,
};
use std::ops::Range;

/// Whose a message is, as the radio knows and the wall does not: of its own desk's present start, or of a
/// neighbour's desk or an earlier start.
#[derive(Clone, Copy, PartialEq, Eq)]
pub enum Whose {
    Own,
    Foreign,
}

/// The drawing that a device shows, the pieces that were cut away from it, and the relation that the last
/// refusal by 13 or 19 names.
pub struct Snapshot {
    pub drawing: Drawing,
    pub cut_away: Vec<Stroke>,
    pub highlight: Option<Highlight>,
}

/// A wall that is about to come in, and both counts then.
pub struct Behind {
    pub wall: Snapshot,
    pub wall_count: u32,
    pub desk_count: u32,
}

pub struct Simulation {
    bridge: Bridge,
    /// Of its desk's first start and of the one with what is drawn later.
    marks: [Mark; 2],
    /// How many starts of its desk there were.
    starts: usize,
    desk: Desk,
    wall: Wall,
    random: Random,
    /// By which the wall is judged: the desk's images, the starting one and those after each of its edits, and
    /// its reports of these.
    images: Vec<Vec<u8>>,
    reports: Vec<Report>,
    desk_cut_away: Vec<Stroke>,
    /// Since the wall was last started again.
    wall_cut_away: Vec<Stroke>,
    /// When the door opened.
    behind: Option<Behind>,
    highlight: Option<Highlight>,
    desk_rings: Rings,
    /// Since the wall was last started again.
    wall_rings: Rings,
    pub tally: Tally,
}

impl Simulation {
    pub fn new(bridge: Bridge, marks: [Mark; 2], seed: u64) -> Result<Simulation, Refusal> {
        let (image, mark) = (bridge.drawing.to_image(), marks[0]);
        Ok(Simulation {
            marks,
            starts: 1,
            desk: Desk::start(&image, mark)?,
            wall: Wall::start(&image, mark)?,
            random: Random::new(seed),
            desk_rings: Rings::new(&bridge.drawing),
            wall_rings: Rings::new(&bridge.drawing),
            bridge,
            images: vec![image],
            reports: Vec::new(),
            desk_cut_away: Vec::new(),
            wall_cut_away: Vec::new(),
            behind: None,
            highlight: None,
            tally: Tally::default(),
        })
    }

    pub fn script(&self) -> &[Edit] {
        &self.bridge.script
    }

    pub fn random_edit(&mut self) -> Edit {
        edits::random(&mut self.random, &drawing_of(self.desk.image()))
    }

    /// The desk's host: asks for an edit, and answers its message if it is accepted.
    pub fn ask(&mut self, edit: &Edit) -> Option<Message> {
        self.tally.asked += 1;
        let before = drawing_of(self.desk.image());
        match self.desk.edit(edit) {
            Err(refusal) => {
                self.follow_refusal(&before, edit, refusal);
                None
            }
            Ok(accepted) => {
                self.tally.accepted += 1;
                let after = drawing_of(self.desk.image());
                let piece = Stroke::removed(&before, &after, edit.curve, &accepted.report);
                self.tally.cut_away += usize::from(piece.is_some());
                self.desk_cut_away.extend(piece);
                self.desk_rings.follow(&before, &after, edit.curve, &accepted.report);
                self.images.push(self.desk.image().to_vec());
                self.reports.push(accepted.report);
                Some(accepted.message)
            }
        }
    }

    /// The desk's host: a relation that is named is highlighted, and looked for in plain Rust too.
    fn follow_refusal(&mut self, drawing: &Drawing, edit: &Edit, refusal: Refusal) {
        *self.tally.refused.entry(refusal.number()).or_default() += 1;
        let first = match refusal {
            Refusal::Unmet { .. } => first_unmet(drawing),
            Refusal::Conflict { .. } => first_unmet_after(drawing, edit),
            _ => return,
        };
        self.tally.named += 1;
        self.tally.named_first += usize::from(refusal.place() == first);
        self.highlight = Highlight::of(refusal, drawing, edit).or(self.highlight.take());
    }

    /// The counts of the desk's first start at which the wall's door is shut.
    pub fn shut(&self) -> &Range<u32> {
        &self.bridge.shut
    }

    /// Whether the desk's last accepted edit is the one with which the wall's door opens.
    pub fn door_opens(&self) -> bool {
        self.starts == 1 && !self.shut().is_empty() && self.shut().end == self.desk.count()
    }

    /// The wall's host: what comes by radio it hands over, unless the door is shut.
    pub fn hear(&mut self, message: &Message, whose: Whose) -> Result<(), String> {
        if self.starts == 1 && self.shut().contains(&self.desk.count()) {
            self.tally.missed += 1;
            return Ok(());
        }
        let before = self.wall.count();
        self.deliver(message, whose)?;
        self.tally.applied += (self.wall.count() - before) as usize;
        Ok(())
    }

    /// A message that is ahead comes again when the wall catches up; a foreign one must be refused by its
    /// mark, and nothing else may be.
    fn deliver(&mut self, message: &Message, whose: Whose) -> Result<(), String> {
        let before = drawing_of(self.wall.image());
        match (whose, self.wall.deliver(message)) {
            (Whose::Own, Ok(Delivery::Old)) => self.tally.old += 1,
            (Whose::Own, Ok(Delivery::Applied(report))) => {
                self.follow_at_wall(&before, message, &report)?;
            }
            (Whose::Own, Err(Refusal::Ahead)) => self.tally.ahead += 1,
            (Whose::Foreign, Err(Refusal::Foreign)) => self.tally.foreign += 1,
            (_, outcome) => {
                let whose = if whose == Whose::Own { "its desk's" } else { "a foreign" };
                let name = self.name();
                return Err(format!("{name}: the wall answers {outcome:?} to {whose} message"));
            }
        }
        self.check_wall()
    }

    /// Fails unless the wall reports what its desk reported of the edit with this count.
    fn follow_at_wall(
        &mut self,
        before: &Drawing,
        message: &Message,
        report: &Report,
    ) -> Result<(), String> {
        let curve = message[CURVE_AT..].first_chunk().expect("a message names a curve");
        let curve = Id::from_be_bytes(*curve);
        let after = drawing_of(self.wall.image());
        self.wall_cut_away.extend(Stroke::removed(before, &after, curve, report));
        self.wall_rings.follow(before, &after, curve, report);
        let (name, count) = (self.name(), self.wall.count());
        match self.reports.get(count as usize - 1) {
            Some(desks) if desks == report => Ok(()),
            desks => {
                Err(format!("{name}: the wall reports {report:?} of edit {count}, not {desks:?}"))
            }
        }
    }

    /// Fails unless the wall shows what its desk showed after as many edits.
    fn check_wall(&self) -> Result<(), String> {
        let (name, count) = (self.name(), self.wall.count());
        match self.images.get(count as usize) {
            Some(image) if image == self.wall.image() => Ok(()),
            _ => Err(format!("{name}: after {count} edits the wall's image is not its desk's")),
        }
    }

    /// The wall's host, whose door has just opened: it is brought level with the desk.
    pub fn come_in(&mut self) -> Result<(), String> {
        let (wall_count, desk_count) = (self.wall.count(), self.desk.count());
        self.behind = Some(Behind { wall: self.wall_snapshot(), wall_count, desk_count });
        self.tally.caught_up_at_door += self.bring_level()?;
        Ok(())
    }

    /// The wall's host asks the desk for what is due, over a line that loses nothing; where that has left the
    /// window, the wall is started again. Answers by how many edits it caught up.
    fn bring_level(&mut self) -> Result<usize, String> {
        let due = self.due()?;
        due.iter().try_for_each(|message| self.deliver(message, Whose::Own))?;
        match self.agrees() {
            true => Ok(due.len()),
            false => {
                Err(format!("{}: the wall that came in is not level with its desk", self.name()))
            }
        }
    }

    /// The hosts, where members are to be drawn in before the edit at this place of the script: the wall is
    /// brought level, and both start anew from the new image with a new mark. Ids stay, and so do the
    /// pieces that were cut away.
    pub fn draw_later(&mut self, place: usize) -> Result<(), String> {
        let Some(later) = self.bridge.later.filter(|later| later.place == place) else {
            return Ok(());
        };
        self.bring_level()?;
        let mut drawing = drawing_of(self.desk.image());
        (later.draw)(&mut drawing);
        let image = drawing.to_image();
        self.starts += 1;
        let mark = self.marks[1];
        let started =
            Desk::start(&image, mark).and_then(|desk| Ok((desk, Wall::start(&image, mark)?)));
        (self.desk, self.wall) =
            started.map_err(|refusal| format!("{}: a start gets {refusal}", self.name()))?;
        self.images = vec![image];
        self.reports.clear();
        Ok(())
    }

    /// The desk's host: what is due to the wall by its count. A wall that is too far back is started again,
    /// and nothing is due to it.
    pub fn due(&mut self) -> Result<Vec<Message>, String> {
        match self.desk.catch_up(self.wall.count()) {
            Ok(due) => Ok(due),
            Err(Refusal::LeftWindow) => self.start_again().map(|()| Vec::new()),
            Err(refusal) => Err(format!("{}: the desk answers {refusal} to its wall", self.name())),
        }
    }

    /// Starts the wall from the desk's present image and count. What it tells counts from here.
    fn start_again(&mut self) -> Result<(), String> {
        let Simulation { desk, .. } = self;
        let wall = Wall::start_at(desk.image(), desk.mark(), desk.count());
        let wall = wall.map_err(|refusal| format!("{}: a start gets {refusal}", self.name()))?;
        self.wall_rings = Rings::new(&drawing_of(wall.image()));
        self.wall_cut_away.clear();
        self.tally.started_again.push(wall.count());
        self.wall = wall;
        self.check_wall()
    }

    /// Notes the wall's count before what is due is sent again.
    pub fn note_count(&mut self) {
        self.tally.wall_before = self.wall.count();
    }

    /// How many starts of its desk there were.
    pub fn starts(&self) -> usize {
        self.starts
    }

    /// What was drawn in at the desk's present start.
    pub fn drawn_in(&self) -> Option<&'static str> {
        self.bridge.later.filter(|_| self.starts > 1).map(|later| later.name)
    }

    pub fn name(&self) -> &'static str {
        self.bridge.name
    }

    pub fn agrees(&self) -> bool {
        self.desk.image() == self.wall.image() && self.desk.count() == self.wall.count()
    }

    /// Whether the wall agrees with the desk, every starting circle that was cut is a ring at both, every
    /// relation that a refusal named was the first that is not met, and the wall came in as it should.
    pub fn passes(&self) -> bool {
        let all_closed = |counts: RingCounts| counts.closed == counts.cut;
        let rings_closed = all_closed(self.desk_rings()) && all_closed(self.wall_rings());
        let all_first = self.tally.named_first == self.tally.named;
        self.agrees() && rings_closed && all_first && self.came_in()
    }

    /// Whether a wall whose door was shut for longer than a window reaches back was started again, once, when
    /// it opened, and no other wall was; one whose door was shut for less has caught up by at least that.
    fn came_in(&self) -> bool {
        let Tally { caught_up_at_door, started_again, .. } = &self.tally;
        match self.shut().len() {
            shut if shut > WINDOW_MESSAGES => *started_again == [self.shut().end],
            shut => *caught_up_at_door >= shut && started_again.is_empty(),
        }
    }

    pub fn desk_rings(&self) -> RingCounts {
        self.desk_rings.counts(&drawing_of(self.desk.image()))
    }

    pub fn wall_rings(&self) -> RingCounts {
        self.wall_rings.counts(&drawing_of(self.wall.image()))
    }

    pub fn desk_count(&self) -> u32 {
        self.desk.count()
    }

    pub fn wall_count(&self) -> u32 {
        self.wall.count()
    }

    /// The bridge as it was drawn.
    pub fn first_snapshot(&self) -> Snapshot {
        Snapshot { drawing: self.bridge.drawing.clone(), cut_away: Vec::new(), highlight: None }
    }

    /// The wall when its door opened, where that was shut.
    pub fn behind(&self) -> Option<&Behind> {
        self.behind.as_ref()
    }

    pub fn desk_snapshot(&self) -> Snapshot {
        let cut_away = self.desk_cut_away.clone();
        let highlight = self.highlight.clone();
        Snapshot { drawing: drawing_of(self.desk.image()), cut_away, highlight }
    }

    /// No message of an edit that was refused comes to the wall, and nothing is highlighted there.
    pub fn wall_snapshot(&self) -> Snapshot {
        let cut_away = self.wall_cut_away.clone();
        Snapshot { drawing: drawing_of(self.wall.image()), cut_away, highlight: None }
    }
}

fn drawing_of(image: &[u8]) -> Drawing {
    read(image).expect("desk and wall hold good images")
}

#[cfg(test)]
#[path = "simulation_tests.rs"]
mod tests;
