//! The picture: for each bridge as it was drawn, its wall while that was behind, and both devices at the end.

use crate::simulation::{Simulation, Snapshot};
use mulkefi::svg::Sheet;
use mulkefi::{Bounds, Position};

/// The part of the plane that a panel shows.
const VIEW: Bounds = Bounds { low: Position::new(-27.0, -8.0), high: Position::new(147.0, 50.0) };
const WIDTH: f64 = 620.0;
const HEIGHT: f64 = 207.0;
const GAP: f64 = 16.0;
const CAPTION: f64 = 24.0;
/// Between two bridges.
const SPACE: f64 = 18.0;
const LINE: f64 = 18.0;

const FOOT: [&str; 2] = [
    "Red and dashed: cut away, on a wall since it was last started again. Brown: arcs and circles. Blue: freeform \
     curves, beside which nothing is trimmed.",
    "Wide and pink: the relation that the desk's last 13 or 19 names, as it was then.",
];

pub fn of(simulations: &[Simulation]) -> String {
    let height = simulations.len() as f64 * bridge_height();
    let foot = FOOT.len() as f64 * LINE;
    let mut sheet = Sheet::new(2.0 * WIDTH + 3.0 * GAP, height + foot + GAP);
    for (place, simulation) in simulations.iter().enumerate() {
        draw_bridge(&mut sheet, place as f64 * bridge_height(), simulation);
    }
    for (place, line) in FOOT.iter().enumerate() {
        sheet.text(Position::new(GAP, height + (place as f64 + 0.6) * LINE), line);
    }
    sheet.finish()
}

const fn panel_height() -> f64 {
    CAPTION + HEIGHT + GAP / 2.0
}

const fn bridge_height() -> f64 {
    2.0 * panel_height() + SPACE
}

/// Four panels, two above two.
fn draw_bridge(sheet: &mut Sheet, top: f64, simulation: &Simulation) {
    let (left, right) = (GAP, 2.0 * GAP + WIDTH);
    let (above, below) = (top + GAP / 2.0, top + GAP / 2.0 + panel_height());
    let name = simulation.name();
    let without = simulation.drawn_in();
    let without = without.map_or(String::new(), |what| format!(", its {what} not yet"));
    let drawn = format!("{name}, as it was drawn{without}");
    panel(sheet, (left, above), &drawn, &simulation.first_snapshot());
    if let Some(behind) = simulation.behind() {
        let (wall, desk) = (behind.wall_count, behind.desk_count);
        let caption = format!("{name}, wall behind a closed door, {wall} of {desk} edits");
        panel(sheet, (right, above), &caption, &behind.wall);
    }
    let since = simulation.drawn_in();
    let since = since.map_or(String::new(), |what| format!(" since the {what} were drawn"));
    let desk = format!("{name}, desk at the end, {} edits{since}", simulation.desk_count());
    let started = simulation.tally.started_again.last();
    let started = started.map_or(String::new(), |count| format!(", started again at {count}"));
    let wall = format!("{name}, wall at the end, {} edits{started}", simulation.wall_count());
    panel(sheet, (left, below), &desk, &simulation.desk_snapshot());
    panel(sheet, (right, below), &wall, &simulation.wall_snapshot());
}

fn panel(sheet: &mut Sheet, (left, top): (f64, f64), caption: &str, snapshot: &Snapshot) {
    sheet.text(Position::new(left, top + CAPTION - 7.0), caption);
    let low = Position::new(left, top + CAPTION);
    let area = Bounds { low, high: Position::new(left + WIDTH, top + CAPTION + HEIGHT) };
    let mut panel = sheet.panel(area, VIEW);
    snapshot.cut_away.iter().for_each(|piece| panel.cut_away(piece));
    panel.drawing(&snapshot.drawing);
    if let Some(highlight) = &snapshot.highlight {
        highlight.draw(&mut panel);
        // Under the water, where nothing is drawn.
        let under = Position::new(left + 8.0, top + CAPTION + HEIGHT - 8.0);
        sheet.text(under, &highlight.caption());
    }
}

#[cfg(test)]
mod tests {
    use super::*;
    use crate::bridges;
    use crate::hall::Hall;

    /// The picture after the scripts, in the order of its panels.
    fn panels(hall: &Hall) -> Vec<String> {
        let picture = of(&hall.simulations);
        let (first, _) = picture.split_once(FOOT[0]).expect("the foot is behind the panels");
        // The foot's own text begins behind the last.
        let (first, _) = first.rsplit_once("<text ").expect("the foot is a text");
        let parts = first.split("<text ").skip(1);
        let mut panels: Vec<String> = Vec::new();
        for part in parts {
            match panels.last_mut() {
                Some(last) if part.contains(">Refused by ") => last.push_str(part),
                _ => panels.push(part.into()),
            }
        }
        assert_eq!(panels.len(), 4 * hall.simulations.len());
        panels
    }

    fn run_scripts() -> Hall {
        let mut hall = Hall::new(bridges::all(), 1).expect("bridges are good images");
        hall.run_scripts().expect("the walls are refused nothing but what is ahead or foreign");
        hall
    }

    /// What is highlighted after the script's last refusal, which random edits follow in a whole run.
    #[test]
    fn the_desks_panel_alone_is_highlighted() {
        let expected = [
            "Refused by 19, relation 1: points ",
            "is to lie on the curve that stops it.",
            "Refused by 13, relation 5: line ",
        ];
        let panels = panels(&run_scripts());
        for (bridge, words) in panels.chunks_exact(4).zip(expected) {
            let named = bridge.iter().map(|panel| panel.contains(words));
            assert_eq!(named.collect::<Vec<_>>(), [false, false, true, false], "{words}");
            let highlighted = bridge.iter().map(|panel| panel.contains("class=\"highlight"));
            assert_eq!(highlighted.collect::<Vec<_>>(), [false, false, true, false], "{words}");
        }
    }

    /// Of each bridge pieces are cut away, none as it was drawn, and less on the wall while it is behind.
    #[test]
    fn pieces_are_cut_away_in_each_bridge() {
        let panels = panels(&run_scripts());
        for bridge in panels.chunks_exact(4) {
            let cut = bridge.iter().map(|panel| panel.matches("class=\"away\"").count());
            let [drawn, behind, desk, wall] = cut.collect::<Vec<_>>()[..] else {
                panic!("four panels")
            };
            assert!(
                drawn == 0 && behind < desk && wall > 0 && wall <= desk,
                "{}",
                &bridge[2][..90]
            );
        }
        let is_freeform = |panel: &String| panel.contains("class=\"freeform\"");
        let freeform = panels.iter().map(is_freeform).collect::<Vec<_>>();
        assert_eq!(freeform.iter().filter(|is| **is).count(), 2, "the free arch at the end");
        assert!(freeform[6] && freeform[7]);
    }

    #[test]
    fn captions_tell_the_counts() {
        let panels = panels(&run_scripts());
        for (place, words) in [
            (0, "round arch, as it was drawn<"),
            (1, " of 14 edits<"),
            (5, " of 15 edits<"),
            (4, "free arch, as it was drawn, its arches not yet<"),
            (6, " edits since the arches were drawn<"),
            (9, "footbridge, wall behind a closed door, "),
            (9, " of 69 edits<"),
            (11, ", started again at 69<"),
        ] {
            assert!(panels[place].contains(words), "{words}");
        }
        let all = panels.concat();
        assert_eq!(all.matches("started again at").count(), 1);
        assert_eq!(all.matches("arches were drawn").count(), 1);
    }
}
