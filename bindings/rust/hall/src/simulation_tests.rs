//! Simulations over whole runs, and faults that are put into them.

use super::*;
use crate::bridges;
use crate::hall::Hall;
use crate::radio::Traffic;
use mulkefi::Kind;

/// All bridges after a whole run.
fn run(seed: u64) -> Hall {
    let mut hall = Hall::new(bridges::all(), seed).expect("bridges are good images");
    hall.run().unwrap_or_else(|fault| panic!("seed {seed}: {fault}"));
    hall
}

#[test]
fn walls_catch_up_whatever_the_radio_does() {
    for seed in 0..100 {
        let hall = run(seed);
        for (place, simulation) in hall.simulations.iter().enumerate() {
            let Simulation { desk_cut_away, wall_cut_away, tally, .. } = simulation;
            assert!(simulation.agrees(), "seed {seed}");
            // A wall that was started again has the pieces since.
            assert!(desk_cut_away.ends_with(wall_cut_away), "seed {seed}");
            let has_all = desk_cut_away.len() == wall_cut_away.len();
            assert_eq!(has_all, tally.started_again.is_empty(), "seed {seed}");
            let Traffic { lost, repeated, overtaken, .. } = hall.traffic(place);
            assert!(lost > 0 && repeated > 0 && overtaken > 0, "seed {seed}");
        }
    }
}

#[test]
fn walls_come_in_by_the_window_or_by_a_new_start() {
    for seed in 0..100 {
        let Hall { simulations, .. } = run(seed);
        let [round, free, foot] = [0, 1, 2].map(|place| &simulations[place]);
        // Up to the edits before the door was shut may be lost too.
        assert!((10..=14).contains(&round.tally.caught_up_at_door), "seed {seed}");
        assert!((12..=15).contains(&free.tally.caught_up_at_door), "seed {seed}");
        assert_eq!(foot.tally.started_again, [69], "seed {seed}");
        assert_eq!(foot.tally.caught_up_at_door, 0, "seed {seed}");
        for simulation in [round, free] {
            assert_eq!(simulation.tally.started_again, [], "seed {seed}");
        }
    }
}

/// The script cuts four bank arches and two wheels of the round arch; a random edit may cut or
/// remove a lamp. Of the free arch it cuts two wheels, and no circle once a freeform curve is in the drawing.
/// Of the footbridge's two baskets one was cut when its wall was started again.
#[test]
fn circles_that_are_cut_are_rings_at_desk_and_wall() {
    for seed in 0..100 {
        let Hall { simulations, .. } = run(seed);
        for simulation in &simulations {
            let [at_desk, at_wall] = [simulation.desk_rings(), simulation.wall_rings()];
            assert_eq!(at_desk.closed, at_desk.cut, "seed {seed}");
            assert_eq!(at_wall.closed, at_wall.cut, "seed {seed}");
            assert!(simulation.passes(), "seed {seed}");
        }
        let at_desks = [0, 1, 2].map(|place| simulations[place].desk_rings());
        let at_walls = [0, 1, 2].map(|place| simulations[place].wall_rings());
        assert_eq!(at_desks[..2], at_walls[..2], "seed {seed}");
        let [round, free, foot] = at_desks;
        assert!((6..=8).contains(&round.cut), "seed {seed}");
        assert_eq!((free.cut, free.uncut), (2, 2), "seed {seed}");
        assert_eq!((foot.cut, at_walls[2].cut), (2, 1), "seed {seed}");
    }
}

#[test]
fn a_wall_that_should_have_come_in_otherwise_is_noticed() {
    let hall = &mut run(1);
    let [round, free, foot] = &mut hall.simulations[..] else { panic!("three bridges") };
    for simulation in [&*round, free, foot] {
        assert!(simulation.passes());
    }
    round.tally.caught_up_at_door = round.shut().len() - 1;
    free.tally.started_again.push(3);
    foot.tally.started_again.clear();
    for simulation in [round, free, foot] {
        assert!(!simulation.passes() && simulation.agrees());
    }
}

#[test]
fn a_ring_that_is_open_at_the_wall_alone_is_noticed() {
    let simulation = &mut run(1).simulations[0];
    assert!(simulation.passes());
    let drawing = drawing_of(simulation.wall.image());
    let mut curves = drawing.curves.iter();
    let lamp = curves.find(|curve| matches!(curve.kind, Kind::Circle { .. }));
    let lamp = lamp.expect("a lamp stands").id;
    // An accepted edit of the lamp that adds no arc and reports nothing.
    simulation.wall_rings.follow(&drawing, &drawing, lamp, &Report::default());
    assert!(!simulation.passes());
    assert!(simulation.agrees());
    assert_eq!(simulation.desk_rings().closed, simulation.desk_rings().cut);
}

#[test]
fn every_named_relation_is_the_first_that_is_not_met() {
    for seed in 0..100 {
        for simulation in &run(seed).simulations {
            let Tally { named, named_first, refused, .. } = &simulation.tally;
            let with_a_place: usize = [13, 19].iter().filter_map(|n| refused.get(n)).sum();
            assert_eq!((*named_first, *named), (with_a_place, with_a_place), "seed {seed}");
            assert!(*named > 0, "seed {seed}: the script has one");
            assert!(simulation.desk_snapshot().highlight.is_some(), "seed {seed}");
            assert!(simulation.wall_snapshot().highlight.is_none(), "seed {seed}");
        }
    }
}

/// Of the gauge's two measures, and of the two false posts', the second is named in place of the first.
#[test]
fn a_relation_that_is_not_the_first_is_noticed() {
    let mut hall = run(1);
    let [round, _, foot] = &mut hall.simulations[..] else { panic!("three bridges") };
    let second = [(round, Refusal::Conflict { place: 2 }), (foot, Refusal::Unmet { place: 6 })];
    for (simulation, refusal) in second {
        assert!(simulation.passes());
        let drawing = simulation.bridge.drawing.clone();
        let extend = *simulation.script().last().expect("a script has edits");
        simulation.follow_refusal(&drawing, &extend, refusal);
        assert!(!simulation.passes(), "{refusal}");
        assert!(simulation.agrees());
    }
}

/// Two bridges alike, so that each wall could apply the messages of both desks.
fn neighbours() -> [Simulation; 2] {
    [1, 2].map(|mark| {
        let [bridge, ..] = bridges::all();
        Simulation::new(bridge, [mark, mark + 2].map(Mark::from), 1)
            .expect("a bridge is a good image")
    })
}

/// The message of the script's first edit.
fn first_message(simulation: &mut Simulation) -> Message {
    let edit = simulation.script()[0];
    simulation.ask(&edit).expect("the script's first edit is accepted")
}

#[test]
fn a_wall_that_takes_a_neighbours_message_is_noticed() {
    let [mut simulation, mut neighbour] = neighbours();
    let [own, foreign] = [&mut simulation, &mut neighbour].map(first_message);
    assert_eq!(simulation.hear(&foreign, Whose::Foreign), Ok(()));
    assert_eq!((simulation.wall.count(), simulation.tally.foreign), (0, 1));

    // The wall was started with the mark of the neighbour's desk.
    let wall = Wall::start(&simulation.images[0], neighbour.desk.mark());
    simulation.wall = wall.expect("a bridge is a good image");
    for (message, whose, expected) in [
        (own, Whose::Own, "answers Err(Foreign) to its desk's message"),
        (foreign, Whose::Foreign, "answers Ok(Applied("),
        (foreign, Whose::Foreign, "answers Ok(Old) to a foreign message"),
    ] {
        let fault = simulation.hear(&message, whose).expect_err(expected);
        assert!(fault.contains(expected), "{fault}");
    }
}

/// A wall with a point more than its desk has.
fn other_wall(simulation: &Simulation) -> Wall {
    let mut drawing = simulation.bridge.drawing.clone();
    drawing.add_point(0.0, -3.0);
    let wall = Wall::start(&drawing.to_image(), simulation.desk.mark());
    wall.expect("a bridge with a point more is a good image")
}

const OTHER_IMAGE: &str = "round arch: after 1 edits the wall's image is not its desk's";

#[test]
fn a_wall_that_shows_another_drawing_is_noticed() {
    let [mut simulation, _] = neighbours();
    let message = first_message(&mut simulation);
    simulation.wall = other_wall(&simulation);
    assert_eq!(simulation.hear(&message, Whose::Own), Err(OTHER_IMAGE.into()));
}

#[test]
fn a_wall_that_comes_in_with_another_drawing_is_noticed() {
    let [mut simulation, _] = neighbours();
    first_message(&mut simulation);
    simulation.wall = other_wall(&simulation);
    assert_eq!(simulation.come_in(), Err(OTHER_IMAGE.into()));
}

#[test]
fn a_report_that_is_not_the_desks_is_noticed() {
    let [mut simulation, _] = neighbours();
    let message = first_message(&mut simulation);
    simulation.reports[0].removed += 1;
    let fault = simulation.hear(&message, Whose::Own).expect_err("another report");
    assert!(fault.starts_with("round arch: the wall reports "), "{fault}");
}

/// The wall has applied a message of which its desk knows nothing.
#[test]
fn a_desk_that_is_set_back_is_noticed() {
    let [mut simulation, _] = neighbours();
    let before = simulation.desk.clone();
    let message = first_message(&mut simulation);
    assert_eq!(simulation.hear(&message, Whose::Own), Ok(()));
    simulation.desk = before;
    let fault = simulation.come_in().expect_err("a count above");
    assert!(fault.starts_with("round arch: the desk answers 27: "), "{fault}");
}

#[test]
fn nothing_is_heard_behind_a_closed_door() {
    let [mut simulation, _] = neighbours();
    simulation.bridge.shut = 1..2;
    let edits = simulation.script()[..2].to_vec();
    let messages = edits.iter().map(|edit| simulation.ask(edit).expect("it is accepted"));
    let [first, second] = messages.collect::<Vec<_>>()[..] else { panic!("two messages") };
    assert!(simulation.door_opens());

    simulation.bridge.shut = 1..3;
    assert_eq!(simulation.hear(&first, Whose::Own), Ok(()));
    assert_eq!((simulation.wall.count(), simulation.tally.missed), (0, 1));
    assert!(!simulation.door_opens());

    assert_eq!(simulation.come_in(), Ok(()));
    assert_eq!(simulation.tally.caught_up_at_door, 2);
    simulation.bridge.shut = 0..0;
    assert_eq!(simulation.hear(&second, Whose::Own), Ok(()));
    assert_eq!((simulation.wall.count(), simulation.tally.old), (2, 1));
}

/// The wall is brought level before the members are drawn in, keeps what was cut away, and follows the new
/// start alone.
#[test]
fn what_was_sent_before_members_were_drawn_in_is_foreign() {
    let [_, bridge, _] = bridges::all();
    let place = bridge.later.expect("arches are drawn in").place;
    let simulation = Simulation::new(bridge, [1, 2].map(Mark::from), 1);
    let mut simulation = simulation.expect("a bridge is a good image");
    let early = first_message(&mut simulation);
    assert_eq!(simulation.draw_later(place - 1), Ok(()));
    assert_eq!((simulation.starts(), simulation.drawn_in()), (1, None));
    assert_eq!(simulation.draw_later(place), Ok(()));
    assert_eq!((simulation.starts(), simulation.drawn_in()), (2, Some("arches")));
    assert!(simulation.agrees() && simulation.desk_count() == 0);
    assert_eq!((simulation.desk.mark(), simulation.wall.mark()), (Mark::from(2), Mark::from(2)));
    assert_eq!((simulation.desk_cut_away.len(), simulation.wall_cut_away.len()), (1, 1));

    assert_eq!(simulation.hear(&early, Whose::Foreign), Ok(()));
    assert_eq!(simulation.tally.foreign, 1);
    let fault = simulation.hear(&early, Whose::Own).expect_err("another mark");
    assert!(fault.contains("answers Err(Foreign) to its desk's message"), "{fault}");
}

#[test]
fn a_wall_is_kept_as_it_was_when_its_door_opened() {
    for simulation in &run(1).simulations {
        let Behind { wall, wall_count, desk_count } = simulation.behind().expect("a door opened");
        assert_eq!(*desk_count, simulation.shut().end);
        assert!(*wall_count <= simulation.shut().start);
        assert!(wall.cut_away.len() <= *wall_count as usize);
    }
}
