//! What becomes of a drawing's circles: once a circle is cut, its standing and removed arcs form a ring.

use mulkefi::{Drawing, Id, Kind, Report};

/// The circles with which a device starts, followed by what it reports.
pub struct Rings {
    circles: Vec<Circle>,
    reports: Vec<Report>,
}

struct Circle {
    id: Id,
    /// The circle's id, and those of the curves that edits of its members added.
    members: Vec<Id>,
    /// What the first accepted edit of the circle reported.
    first_report: Option<Report>,
}

/// How many of the starting circles became what.
#[derive(Clone, Copy, Debug, Default, PartialEq, Eq)]
pub struct RingCounts {
    pub uncut: usize,
    pub removed_whole: usize,
    pub cut: usize,
    /// Those cut whose arcs form a ring.
    pub closed: usize,
}

impl Rings {
    pub fn new(start: &Drawing) -> Rings {
        let circles = start.curves.iter().filter(|curve| matches!(curve.kind, Kind::Circle { .. }));
        let uncut = circles.map(|circle| Circle {
            id: circle.id,
            members: vec![circle.id],
            first_report: None,
        });
        Rings { circles: uncut.collect(), reports: Vec::new() }
    }

    /// Takes an accepted edit: the drawings before and after it, its target and its report.
    pub fn follow(&mut self, before: &Drawing, after: &Drawing, target: Id, report: &Report) {
        let standing = after.curves.iter().map(|curve| curve.id);
        let removed = Some(report.removed).filter(|id| *id != 0);
        let added = standing.chain(removed).filter(|id| before.curve(*id).is_none());
        if let Some(circle) = self.circles.iter_mut().find(|one| one.members.contains(&target)) {
            circle.members.extend(added);
            circle.first_report.get_or_insert(*report);
        }
        self.reports.push(*report);
    }

    pub fn counts(&self, drawing: &Drawing) -> RingCounts {
        let mut counts = RingCounts::default();
        for Circle { id, members, first_report } in &self.circles {
            match first_report {
                None => counts.uncut += 1,
                Some(report) if *report == (Report { removed: *id, start: 0, end: 0 }) => {
                    counts.removed_whole += 1;
                }
                Some(_) => {
                    counts.cut += 1;
                    counts.closed += usize::from(self.is_closed(members, drawing));
                }
            }
        }
        counts
    }

    /// Whether two members or more lead from one to the next and back to the first. Each cut adds a
    /// point of its own, so that one member starts there.
    fn is_closed(&self, members: &[Id], drawing: &Drawing) -> bool {
        let ends = members.iter().map(|id| self.ends(*id, drawing));
        let Some(mut arcs) = ends.collect::<Option<Vec<(Id, Id)>>>() else { return false };
        let Some((start, mut end)) = arcs.pop() else { return false };
        let several = !arcs.is_empty();
        while let Some(next) = arcs.iter().position(|arc| arc.0 == end) {
            end = arcs.swap_remove(next).1;
        }
        several && arcs.is_empty() && end == start
    }

    /// The ends of a standing arc by the drawing, of one that is gone by its report.
    fn ends(&self, id: Id, drawing: &Drawing) -> Option<(Id, Id)> {
        match drawing.curve(id).map(|curve| &curve.kind) {
            Some(Kind::Arc { a, b, .. }) => Some((*a, *b)),
            Some(_) => None,
            None => {
                let report = self.reports.iter().find(|report| report.removed == id)?;
                (report.start != 0 && report.end != 0).then_some((report.start, report.end))
            }
        }
    }
}

#[cfg(test)]
mod tests {
    use super::*;
    use mulkefi::{read, Desk, Edit, Mark, Operation};

    /// A wheel that a line crosses, a lamp that nothing crosses, and a circle that no edit is of.
    fn start() -> (Drawing, [Id; 3]) {
        let mut drawing = Drawing::new();
        let (a, b) = (drawing.add_point(-9.0, 0.0), drawing.add_point(9.0, 0.0));
        drawing.add_curve(Kind::Line { a, b });
        let circles = [0.0, 100.0, 200.0].map(|x| {
            let c = drawing.add_point(x, 0.0);
            drawing.add_curve(Kind::Circle { c, radius: 5.0 })
        });
        (drawing, circles)
    }

    /// The counts after two trims, the reports being changed on their way.
    fn counts(change: fn(&Report) -> Report) -> RingCounts {
        let (mut before, [wheel, lamp, _]) = start();
        let mut rings = Rings::new(&before);
        let desk = Desk::start(&before.to_image(), Mark::from(1));
        let mut desk = desk.expect("it is a good image");
        for (curve, x) in [(wheel, 0.0), (lamp, 100.0)] {
            let edit = Edit { operation: Operation::Trim, curve, x, y: 5.0 };
            let report = desk.edit(&edit).expect("the trim is accepted").report;
            let after = read(desk.image()).expect("a desk holds a good image");
            rings.follow(&before, &after, curve, &change(&report));
            before = after;
        }
        rings.counts(&before)
    }

    #[test]
    fn circles_are_counted_by_what_became_of_them() {
        let expected = RingCounts { uncut: 1, removed_whole: 1, cut: 1, closed: 1 };
        assert_eq!(counts(|report| *report), expected);
    }

    #[test]
    fn a_false_report_opens_the_ring() {
        let swapped = |report: &Report| Report {
            removed: report.removed,
            start: report.end,
            end: report.start,
        };
        assert_eq!(counts(swapped), RingCounts { uncut: 1, removed_whole: 1, cut: 1, closed: 0 });
        let silent = |_: &Report| Report::default();
        assert_eq!(counts(silent), RingCounts { uncut: 1, removed_whole: 0, cut: 2, closed: 0 });
    }
}
