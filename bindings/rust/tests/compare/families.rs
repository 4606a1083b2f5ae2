//! Families of curves at desk and wall: chains and rings after every call and every delivery.

use super::coverage::{Coverage, OLD};
use super::implementations::edit_of;
use mulkefi::message::{MARK_AT, NUMBER_AT};
use mulkefi::{Delivery, Desk, Refusal, Wall, MESSAGE_SIZE};
use oracle::drawing::{CurveKind, Drawing, Id};
use oracle::edit::Report;
use oracle::families::Families;
use oracle::family_counts::FamilyCounts;
use oracle::generate::{marks, random::Random, rings};
use oracle::{image, message};
use std::fmt;

/// How a device's report is taken, by the drawing before the edit.
pub type ReportView = fn(&Drawing, mulkefi::Report) -> Report;

/// What came up: outcomes, and the families at the ends of the lists.
#[derive(Default)]
pub struct FamilyCoverage {
    outcomes: Coverage,
    drawings_with_circles: usize,
    at_desk: FamilyCounts,
    at_wall: FamilyCounts,
}

impl fmt::Display for FamilyCoverage {
    fn fmt(&self, f: &mut fmt::Formatter<'_>) -> fmt::Result {
        write!(f, "{}", self.outcomes)?;
        writeln!(f, "  drawings with circles:{}", self.drawings_with_circles)?;
        writeln!(f, "  at the desks {}", self.at_desk)?;
        writeln!(f, "  at the walls {}", self.at_wall)
    }
}

/// Follows so many lists by the desks' and the walls' own reports.
pub fn check(random: &mut Random, lists: usize, seen: &mut FamilyCoverage) -> Result<(), String> {
    check_views(random, lists, [as_reported; 2], seen)
}

/// The check must be able to fail, at the desk and at the wall.
pub fn planted_faults_are_seen() -> Result<(), String> {
    for planted in [with_centre, with_ends_swapped] {
        for (name, views) in [("desk", [planted, as_reported]), ("wall", [as_reported, planted])] {
            let seen = &mut FamilyCoverage::default();
            let checked = check_views(&mut Random::new(3), 200, views, seen);
            if !checked.is_err_and(|fault| fault.contains(&format!("{name}: family of curve"))) {
                return Err(format!("a planted fault was not seen at the {name}"));
            }
        }
    }
    println!("planted faults of families: seen at desk and wall");
    Ok(())
}

pub fn as_reported(_: &Drawing, report: mulkefi::Report) -> Report {
    Report { removed: report.removed, ends: [report.start, report.end] }
}

/// A fault: a circle that goes whole is reported with its centre.
fn with_centre(before: &Drawing, report: mulkefi::Report) -> Report {
    match before.curve(report.removed).map(|curve| curve.kind) {
        Some(CurveKind::Circle { c, .. }) => Report { removed: report.removed, ends: [c, c] },
        _ => as_reported(before, report),
    }
}

/// A fault: a removed piece is reported the wrong way round.
fn with_ends_swapped(_: &Drawing, report: mulkefi::Report) -> Report {
    Report { removed: report.removed, ends: [report.end, report.start] }
}

/// Follows so many lists, with a view of the desk's reports and one of the wall's.
fn check_views(
    random: &mut Random,
    lists: usize,
    views: [ReportView; 2],
    seen: &mut FamilyCoverage,
) -> Result<(), String> {
    (0..lists).try_for_each(|number| {
        let start = rings::drawing(random);
        let mut pair = DeskAndWall::start(&start, marks::mark(random), views)?;
        seen.drawings_with_circles += usize::from(pair.at_desk.counts.circles() > 0);
        let run = pair.run(random, &mut seen.outcomes);
        run.map_err(|fault| format!("list {number}, {fault}\n  {start:?}\n  {:?}", pair.asked))?;
        seen.at_desk.add(&pair.at_desk.counts);
        seen.at_wall.add(&pair.at_wall.counts);
        Ok(())
    })
}

/// The families of a device's drawing since its start, by the edits that it applied and its own reports of
/// them.
pub struct DeviceFamilies {
    name: &'static str,
    pub drawing: Drawing,
    pub families: Families,
    /// The device's count.
    count: u32,
    view: ReportView,
    pub counts: FamilyCounts,
}

impl DeviceFamilies {
    /// Of a device that starts with a drawing and a count.
    pub fn start(
        name: &'static str,
        drawing: &Drawing,
        count: u32,
        view: ReportView,
    ) -> Result<Self, String> {
        let families = Families::new(drawing);
        let counts = families.check(drawing)?;
        Ok(DeviceFamilies { name, drawing: drawing.clone(), families, count, view, counts })
    }

    /// Takes the image and the count after a call, with target and report if it applied an edit.
    pub fn check(
        &mut self,
        (image, count): (&[u8], u32),
        applied: Option<(Id, mulkefi::Report)>,
    ) -> Result<(), String> {
        let named = |fault: String| format!("{}: {fault}", self.name);
        let after = image::read(image).map_err(|refusal| named(format!("{refusal:?}")))?;
        if let Some((target, report)) = applied {
            let report = (self.view)(&self.drawing, report);
            self.families.follow(&self.drawing, &after, target, &report);
            self.count += 1;
        }
        if count != self.count {
            return Err(named(format!("the count is {count} after {} edits", self.count)));
        }
        self.counts = self.families.check(&after).map_err(named)?;
        self.drawing = after;
        Ok(())
    }
}

/// A desk that is asked a list of edits, and a wall to which its messages come.
struct DeskAndWall {
    desk: Desk,
    wall: Wall,
    at_desk: DeviceFamilies,
    at_wall: DeviceFamilies,
    asked: Vec<message::Edit>,
    messages: Vec<[u8; MESSAGE_SIZE]>,
}

impl DeskAndWall {
    fn start(
        drawing: &Drawing,
        mark: message::Mark,
        [at_desk, at_wall]: [ReportView; 2],
    ) -> Result<Self, String> {
        let image = image::to_bytes(drawing);
        let refused = |refusal| format!("a good image is refused: {refusal}");
        Ok(DeskAndWall {
            desk: Desk::start(&image, mark.into()).map_err(refused)?,
            wall: Wall::start(&image, mark.into()).map_err(refused)?,
            at_desk: DeviceFamilies::start("desk", drawing, 0, at_desk)?,
            at_wall: DeviceFamilies::start("wall", drawing, 0, at_wall)?,
            asked: Vec::new(),
            messages: Vec::new(),
        })
    }

    /// After each call up to two messages come to the wall: mostly the one that it waits for, else any
    /// of those written, so that some come late, again, before an earlier one or never. A neighbour's may
    /// come before them. In three of four lists the wall gets all that it lacks at the end.
    fn run(&mut self, random: &mut Random, outcomes: &mut Coverage) -> Result<(), String> {
        for _ in 0..rings::length(random) {
            self.ask(random, outcomes)?;
            if random.one_in(8) {
                self.deliver_foreign(random, outcomes)?;
            }
            for _ in 0..random.below(3) {
                let next = self.wall.count() as usize;
                let any = random.below(self.messages.len() + 1);
                self.deliver(random.pick(&[next, next, any]), outcomes)?;
            }
        }
        let wanted = if random.one_in(4) { 0 } else { self.messages.len() };
        (self.wall.count() as usize..wanted).try_for_each(|place| self.deliver(place, outcomes))
    }

    fn ask(&mut self, random: &mut Random, outcomes: &mut Coverage) -> Result<(), String> {
        let DeviceFamilies { drawing, families, .. } = &self.at_desk;
        let edit = rings::edit(random, drawing, families);
        self.asked.push(edit);
        let applied = match self.desk.edit(&edit_of(&edit)) {
            Ok(accepted) => {
                outcomes.add("desk", 0);
                self.messages.push(accepted.message);
                Some((edit.curve, accepted.report))
            }
            Err(refusal) => {
                outcomes.add("desk", refusal.number().into());
                None
            }
        };
        self.at_desk.check((self.desk.image(), self.desk.count()), applied)
    }

    /// Brings the wall the message at a place among those written, if there is one.
    fn deliver(&mut self, place: usize, outcomes: &mut Coverage) -> Result<(), String> {
        let Some(bytes) = self.messages.get(place) else { return Ok(()) };
        let message = message::read(bytes, self.desk.mark().into());
        let message = message.map_err(|refusal| format!("desk: {refusal:?}"))?;
        let (number, applied) = match self.wall.deliver(bytes) {
            Ok(Delivery::Applied(report)) => (0, Some((message.edit.curve, report))),
            Ok(Delivery::Old) => (OLD, None),
            Err(refusal) => (refusal.number().into(), None),
        };
        outcomes.add("wall", number);
        self.at_wall.check((self.wall.image(), self.wall.count()), applied)
    }

    /// Brings the wall one of the messages written, under the mark of another desk.
    fn deliver_foreign(
        &mut self,
        random: &mut Random,
        outcomes: &mut Coverage,
    ) -> Result<(), String> {
        let place = random.below(self.messages.len() + 1);
        let Some(mut bytes) = self.messages.get(place).copied() else { return Ok(()) };
        let foreign = marks::foreign(random, self.wall.mark().into());
        bytes[MARK_AT..NUMBER_AT].copy_from_slice(&foreign.to_be_bytes());
        let (image, count) = (self.wall.image().to_vec(), self.wall.count());
        let outcome = self.wall.deliver(&bytes);
        let is_unaltered = (self.wall.image(), self.wall.count()) == (&image[..], count);
        match outcome {
            Err(refusal @ Refusal::Foreign) if is_unaltered => {
                outcomes.add("wall", refusal.number().into());
                Ok(())
            }
            _ => Err(format!("wall: {outcome:?} to a message with a foreign mark")),
        }
    }
}
