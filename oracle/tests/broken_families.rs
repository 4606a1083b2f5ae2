//! Faults planted into the drawings and reports of accepted edits: the check of families says which
//! family each breaks, and how.
#![cfg(upstream)]

use oracle::drawing::*;
use oracle::edit::{apply, Report};
use oracle::examples::{curve, line, point};
use oracle::families::Families;
use oracle::family_counts::FamilyCounts;
use oracle::message::{Edit, Operation};

const BEAM: Id = 5;
/// The beam crosses this circle at both ends of its level diameter.
const WHEEL: Id = 6;
/// Nothing crosses this circle.
const LAMP: Id = 7;
const LAMP_CENTRE: Id = 4;

const SPLIT_WHEEL: Edit = Edit { operation: Operation::Split, curve: WHEEL, x: 0.0, y: 5.0 };
const TRIM_WHEEL: Edit = Edit { operation: Operation::Trim, ..SPLIT_WHEEL };
const TRIM_LAMP: Edit = Edit { operation: Operation::Trim, curve: LAMP, x: 102.0, y: 0.0 };
const SPLIT_BEAM: Edit = Edit { operation: Operation::Split, curve: BEAM, x: 7.0, y: 0.0 };
const TRIM_BEAM: Edit = Edit { operation: Operation::Trim, ..SPLIT_BEAM };

fn start() -> Drawing {
    let ends = [point(1, -9.0, 0.0), point(2, 9.0, 0.0)];
    let centres = [point(3, 0.0, 0.0), point(LAMP_CENTRE, 100.0, 0.0)];
    let circle = |id, c, radius| curve(id, CurveKind::Circle { c, radius });
    Drawing {
        next_id: 8,
        points: [ends, centres].concat(),
        curves: vec![line(BEAM, 1, 2), circle(WHEEL, 3, 5.0), circle(LAMP, LAMP_CENTRE, 2.0)],
        relations: vec![],
    }
}

/// What an accepted edit leaves.
struct Accepted {
    target: Id,
    report: Report,
    after: Drawing,
}

fn accepted(edits: &[Edit]) -> Vec<Accepted> {
    let mut before = start();
    let mut accepted = Vec::new();
    for edit in edits {
        let (after, report) = apply(&before, edit).expect("the edit is accepted");
        before = after.clone();
        accepted.push(Accepted { target: edit.curve, report, after });
    }
    accepted
}

fn check(accepted: &[Accepted]) -> Result<FamilyCounts, String> {
    let mut before = &start();
    let mut families = Families::new(before);
    let mut counts = families.check(before)?;
    for Accepted { target, report, after } in accepted {
        families.follow(before, after, *target, report);
        counts = families.check(after)?;
        before = after;
    }
    Ok(counts)
}

/// The check's answer once the last edit's report and drawing are changed.
fn changed(
    edits: &[Edit],
    change: impl FnOnce(&mut Report, &mut Drawing),
) -> Result<FamilyCounts, String> {
    let mut accepted = accepted(edits);
    check(&accepted).expect("nothing is changed yet");
    let Accepted { report, after, .. } = accepted.last_mut().expect("there is an edit");
    change(report, after);
    check(&accepted)
}

/// The check's words for a change that is a fault.
fn fault(edits: &[Edit], plant: impl FnOnce(&mut Report, &mut Drawing)) -> String {
    changed(edits, plant).expect_err("a fault was planted")
}

fn curve_of(drawing: &mut Drawing, id: Id) -> &mut Curve {
    drawing.curves.iter_mut().find(|curve| curve.id == id).expect("it stands in the drawing")
}

/// The start and the end of a line or an arc.
fn ends_of(drawing: &mut Drawing, id: Id) -> (&mut Id, &mut Id) {
    match &mut curve_of(drawing, id).kind {
        CurveKind::Line { a, b } | CurveKind::Arc { a, b, .. } => (a, b),
        kind => panic!("{kind:?} has no ends"),
    }
}

fn remove(drawing: &mut Drawing, id: Id) {
    drawing.curves.retain(|curve| curve.id != id);
}

#[test]
fn an_arc_that_is_turned_round() {
    let turned = fault(&[SPLIT_WHEEL], |_, after| {
        let (a, b) = ends_of(after, WHEEL);
        std::mem::swap(a, b);
    });
    assert_eq!(turned, "family of curve 6: no ring leads through: 6 (9 to 8), 10 (9 to 8)");
}

#[test]
fn an_arc_that_ends_where_it_starts() {
    let closed = fault(&[SPLIT_WHEEL], |_, after| {
        let (a, b) = ends_of(after, 10);
        *b = *a;
    });
    assert_eq!(closed, "family of curve 6: no ring leads through: 6 (8 to 9), 10 (9 to 9)");
}

#[test]
fn an_arc_that_starts_at_another_point_in_the_same_position() {
    let apart = fault(&[SPLIT_WHEEL], |_, after| {
        let joint = *after.point(9).expect("it was added by the split");
        after.points.push(Point { id: 11, ..joint });
        *ends_of(after, 10).0 = 11;
    });
    assert_eq!(apart, "family of curve 6: no ring leads through: 6 (8 to 9), 10 (11 to 8)");
}

#[test]
fn a_whole_circle_reported_with_its_centre() {
    let centre = fault(&[TRIM_LAMP], |report, _| report.ends = [LAMP_CENTRE; 2]);
    assert_eq!(centre, "family of curve 7: it was cut, and has one member: 7 (4 to 4)");
}

#[test]
fn a_whole_circle_not_reported() {
    let silent = fault(&[TRIM_LAMP], |report, _| *report = Report::default());
    assert_eq!(silent, "family of curve 7: curve 7 is gone, and no report names it");
}

#[test]
fn a_whole_circle_reported_and_left_standing() {
    let standing = fault(&[TRIM_LAMP], |_, after| *after = start());
    assert!(standing.starts_with("family of curve 7: it was removed whole, and stands: "));
}

#[test]
fn a_curve_added_to_a_circle_that_is_removed_whole() {
    let joined = fault(&[TRIM_LAMP], |_, after| after.curves.push(line(8, 1, 2)));
    assert_eq!(joined, "family of curve 7: it is not cut, and has 2 members");
}

#[test]
fn a_removed_arc_not_reported() {
    let first = fault(&[TRIM_WHEEL], |report, _| *report = Report::default());
    assert_eq!(first, "family of curve 6: it was cut, and has one member: 6 (9 to 8)");
    let later = fault(&[SPLIT_WHEEL, TRIM_WHEEL], |report, _| *report = Report::default());
    assert_eq!(later, "family of curve 6: curve 6 is gone, and no report names it");
}

#[test]
fn a_removed_arc_reported_without_ends() {
    let without = fault(&[TRIM_WHEEL], |report, _| report.ends = [0, 0]);
    assert_eq!(without, "family of curve 6: an end is no point: 10 (0 to 0)");
}

#[test]
fn a_removed_arc_reported_again_by_an_edit_of_the_beam() {
    let again = fault(&[TRIM_WHEEL, SPLIT_BEAM], |report, _| {
        *report = Report { removed: 10, ends: [8, 9] };
    });
    let pieces = "5 (1 to 11), 12 (11 to 2), 10 (8 to 9)";
    assert_eq!(again, format!("family of curve 5: no chain leads from 1 to 2: {pieces}"));
}

#[test]
fn a_removed_arc_left_standing() {
    let removed = curve(10, CurveKind::Arc { c: 3, a: 8, b: 9 });
    let twice = fault(&[TRIM_WHEEL], |_, after| after.curves.push(removed));
    assert_eq!(twice, "family of curve 6: curve 10 is a member twice");
}

#[test]
fn a_standing_arc_silently_gone() {
    let gone = fault(&[SPLIT_WHEEL, SPLIT_BEAM], |_, after| remove(after, 10));
    assert_eq!(gone, "family of curve 6: curve 10 is gone, and no report names it");
}

#[test]
fn a_cut_circle_left_whole() {
    let whole = fault(&[SPLIT_WHEEL], |_, after| {
        curve_of(after, WHEEL).kind = CurveKind::Circle { c: 3, radius: 5.0 };
    });
    assert!(whole.starts_with("family of curve 6: a member has no ends: "));
}

#[test]
fn a_line_or_an_arc_about_another_centre_in_the_place_of_an_arc() {
    let others = [CurveKind::Line { a: 9, b: 8 }, CurveKind::Arc { c: LAMP_CENTRE, a: 9, b: 8 }];
    for kind in others {
        let other = fault(&[SPLIT_WHEEL], |_, after| curve_of(after, 10).kind = kind);
        let words = "family of curve 6: a member is no arc about the circle's centre: ";
        assert!(other.starts_with(words), "{other}");
    }
}

#[test]
fn an_uncut_circle_gone_or_changed() {
    let gone = fault(&[SPLIT_BEAM], |_, after| remove(after, LAMP));
    assert_eq!(gone, "family of curve 7: no edit was its own, and it is None");
    let changes: [fn(&mut Curve); 5] = [
        |lamp| lamp.kind = CurveKind::Circle { c: LAMP_CENTRE, radius: 2.5 },
        |lamp| lamp.kind = CurveKind::Circle { c: 3, radius: 2.0 },
        |lamp| lamp.kind = CurveKind::Arc { c: LAMP_CENTRE, a: 1, b: 2 },
        |lamp| lamp.construction = true,
        |lamp| lamp.centerline = true,
    ];
    for change in changes {
        let changed = fault(&[SPLIT_BEAM], |_, after| change(curve_of(after, LAMP)));
        assert!(changed.starts_with("family of curve 7: no edit was its own, and it is Some"));
    }
}

#[test]
fn a_chain_whose_removed_piece_is_reported_the_wrong_way_round() {
    let swapped = fault(&[TRIM_BEAM], |report, _| report.ends.swap(0, 1));
    assert_eq!(swapped, "family of curve 5: no chain leads from 1 to 2: 5 (1 to 8), 9 (2 to 8)");
}

/// The ring of the wheel as four arcs: 6 (8 to 11), 10 (9 to 13), 12 (11 to 9), 14 (13 to 8).
const FOUR_ARCS: [Edit; 3] =
    [SPLIT_WHEEL, SPLIT_WHEEL, Edit { operation: Operation::Split, curve: 10, x: 0.0, y: -5.0 }];

#[test]
fn two_rings_in_place_of_one() {
    let two = fault(&FOUR_ARCS, |_, after| {
        *ends_of(after, 12).1 = 8;
        *ends_of(after, 14).1 = 9;
    });
    let arcs = "6 (8 to 11), 10 (9 to 13), 12 (11 to 8), 14 (13 to 9)";
    assert_eq!(two, format!("family of curve 6: no ring leads through: {arcs}"));
}

#[test]
fn a_point_may_be_passed_more_than_once() {
    let ring = changed(&FOUR_ARCS, |_, after| {
        *ends_of(after, 12).1 = 8;
        *ends_of(after, 10).0 = 8;
    });
    assert_eq!(ring.map(|counts| counts.largest_ring), Ok(4));
    // The beam's pieces are then 5 (1 to 8), 9 (8 to 2) and 11 (8 to 8), of which the last comes
    // between the others.
    let chain = changed(&[SPLIT_BEAM, Edit { x: 1.0, ..SPLIT_BEAM }], |_, after| {
        *ends_of(after, BEAM).1 = 8;
        *ends_of(after, 11).0 = 8;
    });
    assert_eq!(chain.map(|counts| counts.longest_chain), Ok(3));
}
