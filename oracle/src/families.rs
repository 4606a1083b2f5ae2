//! Families of curves, their chains and their rings, followed from edit to edit.
//!
//! A family is a starting curve and each curve that an accepted edit of a member adds, one removed by
//! the same edit too; removed members keep the ends reported. The members of a starting line's or
//! arc's family make one chain, those of a starting circle's family, once it is cut, one ring.
//! Nothing is said of Bézier curves and conics.

use crate::drawing::{Curve, CurveKind, Drawing, Id};
use crate::edit::Report;
use crate::family_counts::FamilyCounts;

/// The families of a starting drawing's lines, arcs and circles after some accepted edits.
pub struct Families {
    families: Vec<Family>,
    /// The reports that name a removed curve.
    reports: Vec<Report>,
}

struct Family {
    start: Curve,
    /// The starting curve's id, then those of the others in the order in which they were added.
    members: Vec<Id>,
    /// What the first accepted edit of the starting curve reported.
    first_report: Option<Report>,
}

/// A member and the points from which and to which it runs.
#[derive(Clone, Copy)]
struct Member {
    id: Id,
    from: Id,
    to: Id,
}

/// Counts of what families make, or what is wrong with one of them.
pub type FamilyCheck = Result<FamilyCounts, String>;

impl Families {
    /// Each starting curve is a family by itself.
    pub fn new(start: &Drawing) -> Families {
        let curves = start.curves.iter().filter(|curve| !curve.kind.is_freeform());
        let alone =
            |start: &Curve| Family { start: *start, members: vec![start.id], first_report: None };
        Families { families: curves.map(alone).collect(), reports: Vec::new() }
    }

    /// Takes an accepted edit: the drawings before and after it, its target and its report.
    pub fn follow(&mut self, before: &Drawing, after: &Drawing, target: Id, report: &Report) {
        let added = added(before, after, report);
        for family in &mut self.families {
            if family.members.contains(&target) {
                family.members.extend(&added);
            }
            if family.start.id == target && family.first_report.is_none() {
                family.first_report = Some(*report);
            }
        }
        if report.removed != 0 {
            self.reports.push(*report);
        }
    }

    /// The members of starting circles' families, removed ones too.
    pub fn members_of_circles(&self) -> Vec<Id> {
        let circles = self.families.iter().filter(|family| ends(&family.start).is_none());
        circles.flat_map(|family| family.members.iter().copied()).collect()
    }

    /// Tests every family in the drawing to which the edits led. Counts what they make, or says which
    /// family is broken and how.
    pub fn check(&self, drawing: &Drawing) -> FamilyCheck {
        let mut counts = FamilyCounts::default();
        for family in &self.families {
            // What has no ends here is a circle.
            let checked = match ends(&family.start) {
                Some((from, to)) => self.check_chain(family, drawing, from, to),
                None => self.check_circle(family, drawing),
            };
            let id = family.start.id;
            counts.add(&checked.map_err(|fault| format!("family of curve {id}: {fault}"))?);
        }
        Ok(counts)
    }

    /// A chain leads from the starting curve's old start to its old end.
    fn check_chain(&self, family: &Family, drawing: &Drawing, from: Id, to: Id) -> FamilyCheck {
        let mut members = self.members(family, drawing)?;
        if !leads(&mut members, from, to) {
            return Err(format!("no chain leads from {from} to {to}: {}", text(&members)));
        }
        Ok(FamilyCounts::of_chain(members.len()))
    }

    /// What the first edit of a starting circle reported decides what its family has to make.
    fn check_circle(&self, family: &Family, drawing: &Drawing) -> FamilyCheck {
        let id = family.start.id;
        let standing = drawing.curve(id);
        let counts = match family.first_report {
            None if standing != Some(&family.start) => {
                return Err(format!("no edit was its own, and it is {standing:?}"));
            }
            None => FamilyCounts::of_uncut_circle(),
            Some(report) if report == (Report { removed: id, ends: [0, 0] }) => {
                if let Some(curve) = standing {
                    return Err(format!("it was removed whole, and stands: {curve:?}"));
                }
                FamilyCounts::of_circle_removed_whole()
            }
            Some(_) => return self.check_ring(family, drawing),
        };
        match family.members.len() {
            1 => Ok(counts),
            count => Err(format!("it is not cut, and has {count} members")),
        }
    }

    /// A ring leads through all members, from any of them back to it; standing ones are arcs about the
    /// circle's centre.
    fn check_ring(&self, family: &Family, drawing: &Drawing) -> FamilyCheck {
        let mut members = self.members(family, drawing)?;
        if members.len() < 2 {
            return Err(format!("it was cut, and has one member: {}", text(&members)));
        }
        if let Some(member) = members.iter().find(|member| member.from == 0 || member.to == 0) {
            return Err(format!("an end is no point: {}", text(&[*member])));
        }
        // Members have two ends, so that those with a centre are arcs.
        let mut standing = members.iter().filter_map(|member| drawing.curve(member.id));
        if let Some(curve) = standing.find(|curve| centre(curve) != centre(&family.start)) {
            return Err(format!("a member is no arc about the circle's centre: {curve:?}"));
        }
        let from = members[0].from;
        if !leads(&mut members, from, from) {
            return Err(format!("no ring leads through: {}", text(&members)));
        }
        Ok(FamilyCounts::of_ring(members.len()))
    }

    /// Each member once: a standing one with the drawing's ends, one that is gone with those reported.
    fn members(&self, family: &Family, drawing: &Drawing) -> Result<Vec<Member>, String> {
        let mut members: Vec<Member> = Vec::with_capacity(family.members.len());
        for id in family.members.iter().copied() {
            if members.iter().any(|member| member.id == id) {
                return Err(format!("curve {id} is a member twice"));
            }
            let (from, to) = match drawing.curve(id) {
                Some(curve) => {
                    ends(curve).ok_or_else(|| format!("a member has no ends: {curve:?}"))?
                }
                None => self.reported_ends(id)?,
            };
            members.push(Member { id, from, to });
        }
        Ok(members)
    }

    fn reported_ends(&self, id: Id) -> Result<(Id, Id), String> {
        match self.reports.iter().find(|report| report.removed == id) {
            Some(Report { ends: [from, to], .. }) => Ok((*from, *to)),
            None => Err(format!("curve {id} is gone, and no report names it")),
        }
    }
}

/// The curves that an edit added, one that it removed again too.
fn added(before: &Drawing, after: &Drawing, report: &Report) -> Vec<Id> {
    let standing = after.curves.iter().map(|curve| curve.id);
    let removed = Some(report.removed).filter(|id| *id != 0);
    standing.chain(removed).filter(|id| before.curve(*id).is_none()).collect()
}

/// The start and the end of a line or an arc.
fn ends(curve: &Curve) -> Option<(Id, Id)> {
    match curve.kind {
        CurveKind::Line { a, b } | CurveKind::Arc { a, b, .. } => Some((a, b)),
        _ => None,
    }
}

/// The centre of an arc or a circle.
fn centre(curve: &Curve) -> Option<Id> {
    match curve.kind {
        CurveKind::Arc { c, .. } | CurveKind::Circle { c, .. } => Some(c),
        _ => None,
    }
}

/// Whether all members, in some order, lead from one point to another, each one's end being the
/// following one's start. Where several members start at a point, each of them is tried.
fn leads(members: &mut Vec<Member>, from: Id, to: Id) -> bool {
    if members.is_empty() {
        return from == to;
    }
    (0..members.len()).any(|at| {
        if members[at].from != from {
            return false;
        }
        let member = members.swap_remove(at);
        let found = leads(members, member.to, to);
        members.push(member);
        let last = members.len() - 1;
        members.swap(at, last);
        found
    })
}

fn text(members: &[Member]) -> String {
    let each = members.iter().map(|Member { id, from, to }| format!("{id} ({from} to {to})"));
    each.collect::<Vec<_>>().join(", ")
}
