//! What the document says of edits, of its terms and of other files.

use crate::document::{float, prose, table};
use mulkefi::{read, Desk, Drawing, Edit, Id, Kind, Mark, Operation, Refusal, Relation, Report};
use std::path::Path;

fn line(drawing: &mut Drawing, a: (f64, f64), b: (f64, f64)) -> Id {
    let (a, b) = (drawing.add_point(a.0, a.1), drawing.add_point(b.0, b.1));
    drawing.add_curve(Kind::Line { a, b })
}

fn edited(drawing: &Drawing, operation: Operation, curve: Id, x: f64, y: f64) -> (Drawing, Report) {
    let mut desk = Desk::start(&drawing.to_image(), Mark::from(7)).expect("a good image");
    let report = desk.edit(&Edit { operation, curve, x, y }).expect("it is accepted").report;
    (read(desk.image()).expect("a desk holds a good image"), report)
}

/// The first number behind these words.
fn number_behind(words: &str) -> f64 {
    let text = prose();
    let (_, rest) = text.split_once(words).unwrap_or_else(|| panic!("no {words}"));
    let word = |c: char| c.is_whitespace() || c == ')';
    let number = rest.trim_start().split(word).next().expect("a word");
    float(number.trim_end_matches(['.', ','])).unwrap_or_else(|| panic!("{number} is no number"))
}

/// Line 3 from (0, 0) to (8, 0), with lines 6 and 9 across it at x = 3 and x = 6.
fn deck() -> Drawing {
    let mut drawing = Drawing::new();
    line(&mut drawing, (0.0, 0.0), (8.0, 0.0));
    line(&mut drawing, (3.0, -2.0), (3.0, 2.0));
    line(&mut drawing, (6.0, -2.0), (6.0, 2.0));
    drawing
}

#[test]
fn between_two_cuts_the_middle_goes() {
    let mut drawing = deck();
    drawing.relations.push(Relation::Length { line: 3, value: 8.0 });
    drawing.relations.push(Relation::Midpoint { p: 4, line: 3 });
    drawing.relations.push(Relation::Equal { a: 3, b: 6 });
    drawing.relations.push(Relation::Collinear { a: 3, b: 6 });
    let (after, report) = edited(&drawing, Operation::Trim, 3, 4.0, 1.0);
    assert_eq!(report, Report { removed: 12, start: 10, end: 11 });
    let kind = |id| after.curve(id).map(|curve| curve.kind.clone());
    assert_eq!(kind(3), Some(Kind::Line { a: 1, b: 10 }));
    assert_eq!(kind(13), Some(Kind::Line { a: 11, b: 2 }));
    let expected = [
        Relation::Distance { p: 1, q: 2, value: 8.0 },
        Relation::Collinear { a: 3, b: 6 },
        Relation::PointOnCurve { p: 10, curve: 6 },
        Relation::PointOnCurve { p: 11, curve: 9 },
        Relation::Collinear { a: 3, b: 13 },
    ];
    assert_eq!(after.relations, expected);
}

#[test]
fn with_one_cut_the_piece_at_the_end_goes() {
    for (x, kind, report, gone) in [
        (7.0, Kind::Line { a: 1, b: 10 }, (11, 10, 2), 2),
        (9.0, Kind::Line { a: 1, b: 10 }, (11, 10, 2), 2),
        (1.0, Kind::Line { a: 10, b: 2 }, (11, 1, 10), 1),
        (-1.0, Kind::Line { a: 10, b: 2 }, (11, 1, 10), 1),
    ] {
        let (after, told) = edited(&deck(), Operation::Trim, 3, x, 0.0);
        assert_eq!((told.removed, told.start, told.end), report);
        assert_eq!(after.curve(3).map(|curve| &curve.kind), Some(&kind));
        assert!(after.point(gone).is_none());
    }
}

#[test]
fn without_a_cut_all_of_it_goes() {
    let mut drawing = Drawing::new();
    let deck = line(&mut drawing, (0.0, 0.0), (8.0, 0.0));
    let c = drawing.add_point(0.0, 9.0);
    let wheel = drawing.add_curve(Kind::Circle { c, radius: 1.0 });
    drawing.relations.push(Relation::Length { line: deck, value: 8.0 });
    let (after, report) = edited(&drawing, Operation::Trim, deck, 1.0, 0.0);
    assert_eq!(report, Report { removed: deck, start: 1, end: 2 });
    assert_eq!((after.points.len(), after.curves.len(), after.relations.len()), (1, 1, 0));
    let (after, report) = edited(&drawing, Operation::Trim, wheel, 1.0, 0.0);
    assert_eq!(report, Report { removed: wheel, start: 0, end: 0 });
    assert_eq!((after.points.len(), after.curves.len(), after.relations.len()), (2, 1, 1));
}

/// A circle about (4, 0.5) that a deck at y = 0 cuts: on the left first, then on the right.
fn wheel() -> Drawing {
    let mut drawing = Drawing::new();
    line(&mut drawing, (0.0, 0.0), (8.0, 0.0));
    let c = drawing.add_point(4.0, 0.5);
    drawing.add_curve(Kind::Circle { c, radius: 2.0 });
    drawing
}

#[test]
fn of_a_circle_the_arc_about_the_pick_goes() {
    let (after, report) = edited(&wheel(), Operation::Trim, 5, 4.0, 2.0);
    assert_eq!(report, Report { removed: 8, start: 7, end: 6 });
    assert_eq!(after.curve(5).map(|arc| &arc.kind), Some(&Kind::Arc { c: 4, a: 6, b: 7 }));
    let (after, report) = edited(&wheel(), Operation::Trim, 5, 4.0, -2.0);
    assert_eq!(report, Report { removed: 8, start: 6, end: 7 });
    assert_eq!(after.curve(5).map(|arc| &arc.kind), Some(&Kind::Arc { c: 4, a: 7, b: 6 }));
    let pins = [6, 7].map(|p| Relation::PointOnCurve { p, curve: 3 });
    assert_eq!(after.relations, pins);
}

#[test]
fn a_split_ties_its_pieces_and_pins_none() {
    let mut drawing = deck();
    let flags = &mut drawing.curves[0];
    (flags.construction, flags.centerline, flags.infinite) = (true, true, true);
    let (after, report) = edited(&drawing, Operation::Split, 3, 2.0, 1.0);
    assert_eq!(report, Report::default());
    let pieces = [3, 11].map(|id| after.curve(id).expect("a piece").clone());
    assert_eq!(pieces[0].kind, Kind::Line { a: 1, b: 10 });
    assert_eq!(pieces[1].kind, Kind::Line { a: 10, b: 2 });
    let flags = pieces.map(|piece| (piece.construction, piece.centerline, piece.infinite));
    assert_eq!(flags, [(true, true, true), (true, false, false)]);
    assert_eq!(after.relations, [Relation::Collinear { a: 3, b: 11 }]);

    let (after, report) = edited(&wheel(), Operation::Split, 5, 4.0, 2.0);
    assert_eq!(report, Report::default());
    assert_eq!(after.curve(5).map(|arc| &arc.kind), Some(&Kind::Arc { c: 4, a: 6, b: 7 }));
    assert_eq!(after.curve(8).map(|arc| &arc.kind), Some(&Kind::Arc { c: 4, a: 7, b: 6 }));
    assert_eq!(after.relations, [Relation::Equal { a: 5, b: 8 }]);
}

/// A beam from (0, 0) to (2, 0), and a post at x = 5 from a height to 1.
fn beam(foot: f64) -> Drawing {
    let mut drawing = Drawing::new();
    line(&mut drawing, (0.0, 0.0), (2.0, 0.0));
    line(&mut drawing, (5.0, foot), (5.0, 1.0));
    drawing
}

#[test]
fn an_extend_moves_one_end_and_pins_it() {
    // Equally near to both ends, the second moves.
    for x in [2.0, 1.0] {
        let (after, report) = edited(&beam(-1.0), Operation::Extend, 3, x, 0.5);
        let moved = after.point(2).map(|point| (point.x, point.y));
        assert_eq!((moved, after.next), (Some((5.0, 0.0)), 7));
        assert_eq!(after.relations, [Relation::PointOnCurve { p: 2, curve: 6 }]);
        assert_eq!(report, Report::default());
    }
    let (after, _) = edited(&beam(0.0), Operation::Extend, 3, 2.0, 0.5);
    assert_eq!(after.relations, [Relation::Coincident { p: 2, q: 4 }]);
}

/// A trimmed end is pinned to an end of the other curve that lies nearer than so much, else to the curve.
#[test]
fn pins_are_to_ends_within_the_tolerance() {
    let near = number_behind("Where an end of that curve lies nearer than");
    for (foot, at_end) in [(0.99 * near, true), (1.01 * near, false)] {
        let mut drawing = Drawing::new();
        line(&mut drawing, (0.0, 0.0), (8.0, 0.0));
        line(&mut drawing, (5.0, -foot), (5.0, 1.0));
        let (after, _) = edited(&drawing, Operation::Trim, 3, 7.0, 0.0);
        let pin = [Relation::PointOnCurve { p: 7, curve: 6 }, Relation::Coincident { p: 7, q: 4 }];
        assert_eq!(after.relations, [pin[usize::from(at_end)]]);
    }
}

/// A hit counts where it is more than so much beyond the end.
#[test]
fn hits_lie_beyond_the_end() {
    let beyond = number_behind("beyond this end, by more than");
    for (gap, hits) in [(0.99 * beyond, false), (1.01 * beyond, true)] {
        let mut drawing = Drawing::new();
        line(&mut drawing, (0.0, 0.0), (2.0, 0.0));
        line(&mut drawing, (2.0 + gap, -1.0), (2.0 + gap, 1.0));
        let mut desk = Desk::start(&drawing.to_image(), Mark::from(7)).expect("a good image");
        let extend = Edit { operation: Operation::Extend, curve: 3, x: 2.0, y: 0.0 };
        let refusal = desk.edit(&extend).err();
        assert_eq!(refusal, (!hits).then_some(Refusal::NothingMet), "{gap}");
    }
}

/// Two hits tie where their distances differ by no more than so much.
#[test]
fn hits_tie_within_the_tolerance() {
    let within = number_behind("Two hits within");
    for (apart, ties) in [(0.99 * within, true), (1.01 * within, false)] {
        let mut drawing = beam(-1.0);
        line(&mut drawing, (5.0 + apart, -1.0), (5.0 + apart, 1.0));
        let mut desk = Desk::start(&drawing.to_image(), Mark::from(7)).expect("a good image");
        let extend = Edit { operation: Operation::Extend, curve: 3, x: 2.0, y: 0.0 };
        let refusal = desk.edit(&extend).err();
        assert_eq!(refusal, ties.then_some(Refusal::Tie), "{apart}");
    }
}

/// A cut at an end of a curve, by so much of it, does not count.
#[test]
fn cuts_at_the_ends_do_not_count() {
    let share = number_behind("(the first and last");
    for (x, cuts) in [(0.99 * share, false), (1.01 * share, true), (1.0 - 0.99 * share, false)] {
        let mut drawing = Drawing::new();
        line(&mut drawing, (0.0, 0.0), (8.0, 0.0));
        line(&mut drawing, (8.0 * x, -1.0), (8.0 * x, 1.0));
        let (after, _) = edited(&drawing, Operation::Trim, 3, 4.0, 0.0);
        assert_eq!(after.curve(3).is_some(), cuts, "{x}");
    }
}

/// An end of another curve cuts where it is within so much of the curve.
#[test]
fn cuts_are_within_the_tolerance() {
    let within = number_behind("or end on it, to within");
    for (off, cuts) in [(0.99 * within, true), (1.01 * within, false)] {
        let mut drawing = Drawing::new();
        line(&mut drawing, (0.0, 0.0), (8.0, 0.0));
        line(&mut drawing, (5.0, off), (5.0, 1.0));
        let (after, _) = edited(&drawing, Operation::Trim, 3, 7.0, 0.0);
        assert_eq!(after.curve(3).is_some(), cuts, "{off}");
    }
}

#[test]
fn terms_are_in_order_and_whole() {
    let rows = table("Terms");
    let terms: Vec<&str> = rows.iter().map(|row| row.cell("term")).collect();
    assert!(terms.is_sorted(), "{terms:?}");
    let needed = [
        "desk",
        "wall",
        "image",
        "message",
        "mark",
        "foreign",
        "window",
        "count",
        "number",
        "old",
        "ahead",
        "pick",
        "round",
        "family",
        "chain",
        "ring",
        "met",
        "pin",
        "place",
        "report",
        "reference machine",
    ];
    for term in needed {
        assert!(terms.contains(&term), "{term}");
    }
    assert!(rows.iter().all(|row| !row.cell("what it is").is_empty()));
}

/// A heading's anchor: its letters, digits and hyphens in lower case, with hyphens for blanks.
fn anchor(heading: &str) -> String {
    let kept = heading.trim().chars().filter(|c| c.is_alphanumeric() || [' ', '-'].contains(c));
    kept.map(|c| if c == ' ' { '-' } else { c.to_ascii_lowercase() }).collect()
}

#[test]
fn links_lead_somewhere() {
    let docs = Path::new(env!("CARGO_MANIFEST_DIR")).join("../../docs");
    for name in ["FORMATS.md", "HANDBOOK.md"] {
        let text = std::fs::read_to_string(docs.join(name)).expect("the document");
        let links = text.split("](").skip(1).map(|rest| rest.split(')').next().expect("a link"));
        let mut count = 0;
        for link in links {
            let (file, part) = link.split_once('#').unwrap_or((link, ""));
            let of = if file.is_empty() { name } else { file };
            assert!(docs.join(of).exists(), "{name}: {link}");
            if !part.is_empty() {
                let target = std::fs::read_to_string(docs.join(of)).expect("a document");
                let headings = target.lines().filter(|line| line.starts_with('#'));
                let mut anchors = headings.map(|line| anchor(line.trim_start_matches('#')));
                assert!(anchors.any(|found| found == part), "{name}: {link}");
            }
            count += 1;
        }
        assert!(count > 0, "{name}");
    }
}
