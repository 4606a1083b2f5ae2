//! The pictures of `docs/FORMATS.md`: drawings before and after an edit, as the engine answers it.

use mulkefi::svg::Sheet;
use mulkefi::{
    read, Bounds, Desk, Drawing, Edit, Id, Kind, Mark, Operation, Position, Relation, Report,
    Stroke,
};

/// A drawing, and the edit of it that is shown.
struct Scene {
    title: &'static str,
    drawing: Drawing,
    edit: Edit,
}

/// An edit as it was made.
struct Made {
    before: Drawing,
    after: Drawing,
    edit: Edit,
    report: Report,
}

const WIDTH: f64 = 360.0;
const HEIGHT: f64 = 216.0;
const GAP: f64 = 16.0;
const CAPTION: f64 = 46.0;
/// The width of a curve's label, about.
const LABEL: f64 = 36.0;
/// So much of the plane is seen: as wide for its height as a panel.
const VIEW: Bounds = Bounds { low: Position::new(-1.0, -3.0), high: Position::new(9.0, 3.0) };

/// Each picture by the name of its file.
pub fn all() -> [(&'static str, String); 3] {
    [
        ("trim.svg", picture(&[trim_middle(), trim_end(), trim_circle()])),
        ("split.svg", picture(&[split_line(), split_circle()])),
        ("extend.svg", picture(&[extend_onto_curve(), extend_to_end()])),
    ]
}

/// Scenes one below the other, each before its edit and after it.
fn picture(scenes: &[Scene]) -> String {
    let row = CAPTION + HEIGHT + GAP;
    let mut sheet = Sheet::new(2.0 * WIDTH + 3.0 * GAP, row * scenes.len() as f64 + GAP);
    for (place, scene) in scenes.iter().enumerate() {
        let top = GAP + row * place as f64;
        let made = make(scene);
        sheet.text(Position::new(GAP, top + 12.0), scene.title);
        let (before, after) = (area(GAP, top + CAPTION), area(2.0 * GAP + WIDTH, top + CAPTION));
        caption(&mut sheet, before, &asked(&made.edit));
        caption(&mut sheet, after, &reported(&made.report));
        draw_before(&mut sheet, before, &made);
        draw_after(&mut sheet, after, &made);
    }
    sheet.finish()
}

/// What the engine makes of a scene's edit.
fn make(scene: &Scene) -> Made {
    let Scene { drawing, edit, .. } = scene;
    let mut desk = Desk::start(&drawing.to_image(), Mark::from(1)).expect("the drawing is good");
    let report = desk.edit(edit).expect("the edit is accepted").report;
    let after = read(desk.image()).expect("a desk holds a good image");
    Made { before: drawing.clone(), after, edit: *edit, report }
}

fn area(left: f64, top: f64) -> Bounds {
    Bounds { low: Position::new(left, top), high: Position::new(left + WIDTH, top + HEIGHT) }
}

fn caption(sheet: &mut Sheet, area: Bounds, text: &str) {
    sheet.text(Position::new(area.low.x, area.low.y - 8.0), text);
}

fn asked(edit: &Edit) -> String {
    let operation = match edit.operation {
        Operation::Trim => "trim",
        Operation::Split => "split",
        Operation::Extend => "extend",
    };
    format!("{operation} curve {}, picked at ({}, {})", edit.curve, edit.x, edit.y)
}

fn reported(report: &Report) -> String {
    match report {
        Report { removed: 0, .. } => "afterwards: report 0, 0, 0".into(),
        Report { removed, start, end } => format!("afterwards: report {removed}, {start}, {end}"),
    }
}

fn draw_before(sheet: &mut Sheet, area: Bounds, made: &Made) {
    let mut panel = sheet.panel(area, VIEW);
    panel.drawing(&made.before);
    panel.points(&made.before);
    // The pick as a point that a relation names.
    let mut pick = Drawing::new();
    let p = pick.add_point(made.edit.x, made.edit.y);
    panel.highlight_relation(&pick, &Relation::Coincident { p, q: p });
    label(sheet, area, &made.before);
}

fn draw_after(sheet: &mut Sheet, area: Bounds, made: &Made) {
    let Made { before, after, edit, report } = made;
    let mut panel = sheet.panel(area, VIEW);
    panel.drawing(after);
    if let Some(piece) = Stroke::removed(before, after, edit.curve, report) {
        panel.cut_away(&piece);
    }
    panel.points(after);
    label(sheet, area, after);
}

/// The id beside each point, and kind and id beside each curve.
fn label(sheet: &mut Sheet, area: Bounds, drawing: &Drawing) {
    let scale = area.width() / VIEW.width();
    let mut text = |at: Position, right: f64, down: f64, label: &str| {
        let x = area.low.x + (at.x - VIEW.low.x) * scale + right;
        let y = area.low.y + (VIEW.high.y - at.y) * scale + down;
        sheet.text(Position::new(x, y), label);
    };
    let mut points: Vec<(Position, String)> = Vec::new();
    for point in &drawing.points {
        let at = Position::new(point.x, point.y);
        // Points at one position share a label.
        match points.iter_mut().find(|(other, _)| at.distance(*other) < 1e-6) {
            Some((_, label)) => *label += &format!(", {}", point.id),
            None => points.push((at, point.id.to_string())),
        }
    }
    points.iter().for_each(|(at, label)| text(*at, 5.0, 15.0, label));
    for curve in &drawing.curves {
        let stroke = Stroke::of(drawing, curve).expect("its points are there");
        let (at, right, down) = label_place(&stroke);
        text(at, right, down, &format!("{} {}", curve.kind.name(), curve.id));
    }
}

/// Where a curve's label stands: a position on it, and how far right of that and below it.
fn label_place(stroke: &Stroke) -> (Position, f64, f64) {
    let positions = stroke.positions();
    match positions[..] {
        [a, b] if (a.x - b.x).abs() < (a.y - b.y).abs() => (a.towards(b, 0.25), 6.0, 4.0),
        [a, b] => {
            // Above a line that rises along the label.
            let rise = (b.y - a.y) / (b.x - a.x) * LABEL;
            (a.towards(b, 0.08), 0.0, -6.0 - rise.max(0.0))
        }
        _ => (positions[positions.len() / 8], 8.0, 4.0),
    }
}

fn line(drawing: &mut Drawing, a: (f64, f64), b: (f64, f64)) -> Id {
    let (a, b) = (drawing.add_point(a.0, a.1), drawing.add_point(b.0, b.1));
    drawing.add_curve(Kind::Line { a, b })
}

/// A deck that two posts cross.
fn deck_and_posts() -> (Drawing, Id) {
    let mut drawing = Drawing::new();
    let deck = line(&mut drawing, (0.0, 0.0), (8.0, 0.0));
    line(&mut drawing, (3.0, -2.0), (3.0, 2.0));
    line(&mut drawing, (6.0, -2.0), (6.0, 2.0));
    (drawing, deck)
}

/// A wheel that a deck crosses.
fn deck_and_wheel() -> (Drawing, Id) {
    let mut drawing = Drawing::new();
    line(&mut drawing, (0.0, 0.0), (8.0, 0.0));
    let c = drawing.add_point(4.0, 0.5);
    let wheel = drawing.add_curve(Kind::Circle { c, radius: 2.0 });
    (drawing, wheel)
}

fn scene(
    title: &'static str,
    (drawing, curve): (Drawing, Id),
    operation: Operation,
    (x, y): (f64, f64),
) -> Scene {
    Scene { title, drawing, edit: Edit { operation, curve, x, y } }
}

fn trim_middle() -> Scene {
    let title = "Trim, between two cuts: the piece between them goes, and two pieces stay.";
    scene(title, deck_and_posts(), Operation::Trim, (4.5, 0.5))
}

fn trim_end() -> Scene {
    let title = "Trim, beyond the last cut: the piece up to the end goes, and the end with it.";
    scene(title, deck_and_posts(), Operation::Trim, (7.0, 0.5))
}

fn trim_circle() -> Scene {
    let title = "Trim of a circle: the arc about the pick goes, and the other stays.";
    scene(title, deck_and_wheel(), Operation::Trim, (4.0, 2.0))
}

fn split_line() -> Scene {
    let title = "Split of a line: at the foot of the pick, whatever crosses it.";
    scene(title, deck_and_posts(), Operation::Split, (4.5, 0.5))
}

fn split_circle() -> Scene {
    let title = "Split of a circle: at the two cuts around the pick.";
    scene(title, deck_and_wheel(), Operation::Split, (4.0, 2.0))
}

fn extend_onto_curve() -> Scene {
    let title = "Extend onto a curve: the end next to the pick moves until the line meets another.";
    let mut drawing = Drawing::new();
    let beam = line(&mut drawing, (0.0, -1.0), (3.0, 0.0));
    line(&mut drawing, (6.0, -2.0), (6.0, 2.5));
    line(&mut drawing, (7.5, -2.0), (7.5, 2.5));
    scene(title, (drawing, beam), Operation::Extend, (2.5, 0.5))
}

fn extend_to_end() -> Scene {
    let title = "Extend to an end: where the line meets a curve's end, the two are coincident.";
    let mut drawing = Drawing::new();
    let beam = line(&mut drawing, (0.0, 0.0), (3.0, 0.0));
    line(&mut drawing, (6.0, 0.0), (7.0, 2.5));
    scene(title, (drawing, beam), Operation::Extend, (2.5, 0.5))
}
