//! One desk, one wall, the radio and the door between them, for all pages.
//!
//! After a start nothing but messages over the radio changes the wall's drawing. The session has no clock of
//! its own: each call is told the time since the session began, and what has arrived by then is delivered.

use super::air::{Air, Settings};
use super::marks::Marks;
use super::member::{Fault, Member};
use super::notice::Notice;
use super::offer::{self, Offered};
use crate::highlight::Highlight;
use mulkefi::{
    read, Bounds, Delivery, Desk, Drawing, Edit, Message, Operation, Position, Refusal, Stroke,
    Wall,
};
use std::time::Duration;

/// The radio with which the hall opens.
const SETTINGS: Settings = Settings { loss: 20, repeats: 10, reordering: 10 };
/// What is shown of the plane at least, and how much about what stands in it.
const STAGE: Bounds = Bounds { low: Position::new(-26.0, -6.0), high: Position::new(146.0, 52.0) };
const ROOM: f64 = 2.0;

#[derive(Clone)]
pub struct Session {
    pub desk: Desk,
    pub wall: Wall,
    /// The pieces cut away since the device's last start.
    pub desk_away: Vec<Stroke>,
    pub wall_away: Vec<Stroke>,
    pub highlight: Option<Highlight>,
    pub door_is_open: bool,
    pub air: Air,
    pub tally: WallTally,
    /// The part of the plane that is shown.
    pub view: Bounds,
    /// Rises with each change of what a page shows.
    pub revision: u64,
    notice: Option<Notice>,
    /// How many notices there were.
    serial: u64,
    marks: Marks,
}

/// What became of the messages that came to the wall.
#[derive(Clone, Copy, Debug, Default, PartialEq, Eq)]
pub struct WallTally {
    pub applied: usize,
    pub old: usize,
    pub ahead: usize,
    pub foreign: usize,
    /// What came while the door was closed.
    pub missed: usize,
    pub started_again: usize,
}

impl Session {
    /// The opening bridge at the desk and on the wall, or the refusal of its image.
    pub fn open(marks: Marks, seed: u64) -> Result<Session, Refusal> {
        let mut marks = marks;
        let drawing = offer::opening();
        let (image, mark) = (drawing.to_image(), marks.next());
        Ok(Session {
            desk: Desk::start(&image, mark)?,
            wall: Wall::start(&image, mark)?,
            desk_away: Vec::new(),
            wall_away: Vec::new(),
            highlight: None,
            door_is_open: true,
            air: Air::new(SETTINGS, seed),
            tally: WallTally::default(),
            view: about(&drawing),
            // A page that outlives its server is not taken for one that has seen the new one's state.
            revision: u64::from(marks.of_server()),
            notice: None,
            serial: 0,
            marks,
        })
    }

    /// Delivers what has arrived by now. While the door is closed it is lost.
    pub fn advance(&mut self, now: Duration) {
        for message in self.air.arrived(now) {
            self.revision += 1;
            if self.door_is_open {
                self.deliver(&message);
            } else {
                self.tally.missed += 1;
            }
        }
    }

    fn deliver(&mut self, bytes: &[u8]) {
        let before = drawing_of(self.wall.image());
        match self.wall.deliver(bytes) {
            Ok(Delivery::Old) => self.tally.old += 1,
            Ok(Delivery::Applied(report)) => {
                self.tally.applied += 1;
                let after = drawing_of(self.wall.image());
                let curve = Message::read(bytes).map_or(0, |message| message.curve);
                self.wall_away.extend(Stroke::removed(&before, &after, curve, &report));
            }
            Err(Refusal::Ahead) => self.tally.ahead += 1,
            Err(Refusal::Foreign) => self.tally.foreign += 1,
            // No desk's message comes to this; should one, the person at the desk is told.
            Err(refusal) => self.tell(Notice::refused(refusal, None)),
        }
    }

    /// Asks the desk for an edit of the curve under the finger, and sends the message if it is accepted.
    pub fn edit(&mut self, operation: Operation, at: Position, within: f64, now: Duration) {
        self.advance(now);
        let before = drawing_of(self.desk.image());
        let Some(curve) = before.nearest(at.x, at.y, within) else {
            return self.tell(Notice::told("Nothing there", "No member is there.".into()));
        };
        let edit = Edit { operation, curve, x: at.x, y: at.y };
        match self.desk.edit(&edit) {
            Ok(accepted) => {
                let after = drawing_of(self.desk.image());
                let report = accepted.report;
                self.desk_away.extend(Stroke::removed(&before, &after, curve, &report));
                self.highlight = None;
                self.air.send(&accepted.message, now);
                self.tell(Notice::edited(&before, &after, &edit));
            }
            Err(refusal) => {
                let named = Highlight::of(refusal, &before, &edit);
                let words = named.as_ref().map(Highlight::words);
                self.highlight = named;
                self.tell(Notice::refused(refusal, words));
            }
        }
    }

    /// Draws a member at the desk, which is started anew with it.
    pub fn draw(&mut self, member: &Member, within: f64, now: Duration) {
        self.advance(now);
        let drawing = drawing_of(self.desk.image());
        let started = match member.add_to(&drawing, within) {
            Ok((drawn, id)) => {
                let stroke = drawn.curve(id).and_then(|curve| Stroke::of(&drawn, curve));
                let view = joined(self.view, stroke.map_or(Vec::new(), |one| one.positions()));
                self.start(&drawn, view).map_err(Fault::Refused)
            }
            Err(fault) => Err(fault),
        };
        self.tell(match started {
            Ok(()) => Notice::accepted("Drawn", self.of_start(&format!("The {}", member.name()))),
            Err(Fault::Refused(refusal)) => Notice::refused(refusal, None),
            Err(fault) => Notice::declined("Not drawn", fault.sentence()),
        });
    }

    /// Starts the desk anew with another drawing.
    pub fn begin(&mut self, offered: &Offered, now: Duration) {
        self.advance(now);
        let view = about(&offered.drawing);
        let started = self.start(&offered.drawing, view);
        self.tell(match started {
            Ok(()) => Notice::told("New drawing", self.of_start(&offered.title)),
            Err(refusal) => Notice::refused(refusal, None),
        });
    }

    /// Starts the desk, and the wall from the same image, which goes by the way that loses nothing. Behind a
    /// closed door the wall keeps its drawing and its mark.
    fn start(&mut self, drawing: &Drawing, view: Bounds) -> Result<(), Refusal> {
        let (image, mark) = (drawing.to_image(), self.marks.next());
        let desk = Desk::start(&image, mark)?;
        if self.door_is_open {
            self.wall = Wall::start(&image, mark)?;
            self.wall_away.clear();
            self.view = view;
        } else {
            self.view = joined(view, [self.view.low, self.view.high]);
        }
        self.desk = desk;
        self.desk_away.clear();
        self.highlight = None;
        Ok(())
    }

    fn of_start(&self, what: &str) -> String {
        if self.door_is_open {
            format!("{what} is at the desk and on the wall, which both start anew.")
        } else {
            format!(
                "{what} is at the desk alone: the wall's door is closed, and it starts when messages \
                 are sent again with the door open."
            )
        }
    }

    pub fn set_radio(&mut self, settings: Settings, now: Duration) {
        self.advance(now);
        self.air.settings = settings;
        self.revision += 1;
    }

    /// Opening delivers nothing by itself.
    pub fn set_door(&mut self, is_open: bool, now: Duration) {
        self.advance(now);
        self.door_is_open = is_open;
        self.revision += 1;
    }

    /// Sends the messages that are due to the wall over the same radio. A wall that has another mark than
    /// the desk, or is too far back, is started again instead.
    pub fn send_again(&mut self, now: Duration) {
        self.advance(now);
        if self.mark_differs() {
            return self.start_again("The desk began another drawing since the wall's start.");
        }
        match self.desk.catch_up(self.wall.count()) {
            Ok(due) => {
                due.iter().for_each(|message| self.air.send(message, now));
                self.tell(Notice::told("Sent again", self.of_due(due.len())));
            }
            Err(refusal) => self.start_again(refusal.sentence()),
        }
    }

    fn of_due(&self, due: usize) -> String {
        let door =
            if self.door_is_open { "" } else { " The door is closed: what arrives is lost." };
        match due {
            0 => format!("Nothing is due: the wall has all {} edits.", self.wall.count()),
            1 => format!("1 message is on the air again.{door}"),
            due => format!("{due} messages are on the air again.{door}"),
        }
    }

    /// Starts the wall from the desk's present image and count, unless its door is closed.
    fn start_again(&mut self, why: &str) {
        if !self.door_is_open {
            let text = format!("{why} The wall is to be started again, and its door is closed: nothing reaches it.");
            return self.tell(Notice::told("Nothing sent", text));
        }
        match Wall::start_at(self.desk.image(), self.desk.mark(), self.desk.count()) {
            Ok(wall) => {
                self.wall = wall;
                self.wall_away.clear();
                self.tally.started_again += 1;
                let text = format!("{why} The wall starts again from the desk's present image.");
                self.tell(Notice::told("Started again", text));
            }
            Err(refusal) => self.tell(Notice::refused(refusal, None)),
        }
    }

    fn tell(&mut self, notice: Notice) {
        self.notice = Some(notice);
        self.serial += 1;
        self.revision += 1;
    }

    /// The last notice, with how many there were.
    pub fn notice(&self) -> Option<(&Notice, u64)> {
        self.notice.as_ref().map(|notice| (notice, self.serial))
    }

    pub fn mark_differs(&self) -> bool {
        self.desk.mark() != self.wall.mark()
    }

    pub fn is_alike(&self) -> bool {
        let Session { desk, wall, .. } = self;
        !self.mark_differs() && desk.count() == wall.count() && desk.image() == wall.image()
    }

    /// How many edits the wall lacks: all, where it follows another start.
    pub fn behind(&self) -> u32 {
        match self.mark_differs() {
            true => self.desk.count(),
            false => self.desk.count().saturating_sub(self.wall.count()),
        }
    }
}

pub fn drawing_of(image: &[u8]) -> Drawing {
    read(image).expect("desk and wall hold good images")
}

/// So much of the plane that all curves of a drawing are seen with some room about them, and no less than
/// the stage.
fn about(drawing: &Drawing) -> Bounds {
    let strokes = drawing.curves.iter().filter_map(|curve| Stroke::of(drawing, curve));
    let bounds = Bounds::of(strokes.flat_map(|stroke| stroke.positions()));
    let Some(bounds) = bounds.map(|bounds| bounds.grown(ROOM)) else { return STAGE };
    joined(STAGE, [bounds.low, bounds.high])
}

/// The bounds, and with them positions that they do not show yet.
fn joined(bounds: Bounds, positions: impl IntoIterator<Item = Position>) -> Bounds {
    let corners = [bounds.low, bounds.high].into_iter();
    Bounds::of(corners.chain(positions)).unwrap_or(bounds)
}
