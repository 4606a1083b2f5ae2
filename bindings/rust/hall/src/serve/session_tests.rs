//! The session with a clock of its own.

use super::air::Settings;
use super::marks::Marks;
use super::member::Member;
use super::notice::Kind;
use super::offer;
use super::session::{Session, WallTally};
use mulkefi::{Operation, Position};
use std::time::Duration;

const SURE: Settings = Settings { loss: 0, repeats: 0, reordering: 0 };
const DEAD: Settings = Settings { loss: 100, repeats: 0, reordering: 0 };

/// A session and the time in it.
struct Hall {
    session: Session,
    now: Duration,
}

impl Hall {
    fn open(settings: Settings) -> Hall {
        let session = Session::open(Marks::new(7), 1).expect("the opening bridge is a good image");
        let mut hall = Hall { session, now: Duration::ZERO };
        hall.session.set_radio(settings, hall.now);
        hall
    }

    /// Lets all arrive that is on the air.
    fn wait(&mut self) {
        self.now += Duration::from_secs(4);
        self.session.advance(self.now);
        assert_eq!(self.session.air.flying(), 0);
    }

    fn edit(&mut self, operation: Operation, x: f64, y: f64) {
        self.session.edit(operation, Position::new(x, y), 1.0, self.now);
    }

    /// Splits the deck at so many places.
    fn split_deck(&mut self, times: u32) {
        for place in 1..=times {
            self.edit(Operation::Split, 140.0 - f64::from(place), 20.0);
        }
    }

    /// Begins a drawing that is offered.
    fn begin(&mut self, name: &str) {
        let offered = offer::all();
        let named = offered.iter().find(|one| one.name == name).expect("it is offered");
        self.session.begin(named, self.now);
    }

    fn draw_line(&mut self, from: (f64, f64), to: (f64, f64)) {
        let ends = [from, to].map(|(x, y)| Position::new(x, y));
        self.session.draw(&Member::Line { ends }, 0.5, self.now);
    }

    fn counts(&self) -> (u32, u32) {
        (self.session.desk.count(), self.session.wall.count())
    }

    fn title(&self) -> &str {
        self.session.notice().map_or("", |(notice, _)| &notice.title)
    }

    fn text(&self) -> &str {
        self.session.notice().map_or("", |(notice, _)| &notice.text)
    }
}

#[test]
fn the_wall_follows_when_the_message_arrives_and_not_before() {
    let mut hall = Hall::open(SURE);
    assert!(hall.session.is_alike());
    hall.edit(Operation::Trim, 60.0, 45.0);
    assert_eq!((hall.counts(), hall.session.behind()), ((1, 0), 1));
    assert_eq!((hall.session.desk_away.len(), hall.session.wall_away.len()), (1, 0));
    hall.session.advance(hall.now + Duration::from_millis(249));
    assert!(!hall.session.is_alike());
    hall.session.advance(hall.now + Duration::from_millis(250));
    assert!(hall.session.is_alike());
    assert_eq!(hall.session.desk_away, hall.session.wall_away);
    assert_eq!(hall.session.tally, WallTally { applied: 1, ..WallTally::default() });
}

#[test]
fn a_wall_that_missed_all_catches_up_when_it_is_sent_again() {
    let mut hall = Hall::open(DEAD);
    hall.split_deck(5);
    hall.wait();
    assert_eq!((hall.counts(), hall.session.behind()), ((5, 0), 5));
    hall.session.send_again(hall.now);
    hall.wait();
    assert_eq!((hall.counts(), hall.session.air.counts.lost), ((5, 0), 10));

    hall.session.set_radio(SURE, hall.now);
    hall.session.send_again(hall.now);
    assert_eq!(hall.text(), "5 messages are on the air again.");
    hall.wait();
    assert!(hall.session.is_alike());
    assert_eq!(hall.session.tally, WallTally { applied: 5, ..WallTally::default() });
    hall.session.send_again(hall.now);
    assert_eq!(hall.text(), "Nothing is due: the wall has all 5 edits.");
}

#[test]
fn old_and_ahead_are_counted() {
    let mut hall = Hall::open(Settings { repeats: 100, ..SURE });
    hall.split_deck(1);
    hall.wait();
    assert_eq!((hall.session.tally.applied, hall.session.tally.old), (1, 1));

    hall.session.set_radio(DEAD, hall.now);
    hall.split_deck(2);
    hall.session.set_radio(SURE, hall.now);
    hall.edit(Operation::Trim, 60.0, 45.0);
    hall.wait();
    assert_eq!((hall.session.tally.ahead, hall.session.behind()), (1, 2));
}

#[test]
fn what_is_on_the_air_from_before_a_new_drawing_is_foreign() {
    let mut hall = Hall::open(SURE);
    hall.split_deck(2);
    let mark = hall.session.desk.mark();
    hall.begin("round-arch");
    assert!(hall.session.is_alike() && hall.session.desk.mark() != mark);
    assert_eq!(hall.counts(), (0, 0));
    hall.wait();
    assert_eq!(hall.session.tally, WallTally { foreign: 2, ..WallTally::default() });
    assert!(hall.session.is_alike());
}

#[test]
fn behind_a_closed_door_all_is_missed_and_opening_brings_nothing() {
    let mut hall = Hall::open(SURE);
    hall.session.set_door(false, hall.now);
    hall.split_deck(3);
    hall.wait();
    hall.session.send_again(hall.now);
    assert!(hall.text().contains("The door is closed"), "{}", hall.text());
    hall.wait();
    assert_eq!((hall.counts(), hall.session.tally.missed), ((3, 0), 6));
    hall.session.set_door(true, hall.now);
    hall.wait();
    assert_eq!(hall.counts(), (3, 0));
    hall.session.send_again(hall.now);
    hall.wait();
    assert!(hall.session.is_alike());
    assert_eq!(hall.session.tally.started_again, 0);
}

#[test]
fn a_new_drawing_behind_a_closed_door_waits_for_a_start() {
    let mut hall = Hall::open(SURE);
    hall.edit(Operation::Trim, 60.0, 45.0);
    hall.wait();
    hall.session.set_door(false, hall.now);
    let (image, mark) = (hall.session.wall.image().to_vec(), hall.session.wall.mark());
    hall.begin("empty");
    hall.draw_line((0.0, 0.0), (10.0, 0.0));
    hall.edit(Operation::Split, 5.0, 0.0);
    hall.wait();
    let wall_keeps =
        |hall: &Hall| hall.session.wall.image() == image && hall.session.wall.mark() == mark;
    assert!(wall_keeps(&hall) && hall.session.mark_differs() && !hall.session.is_alike());
    assert_eq!((hall.session.behind(), hall.session.wall_away.len()), (1, 1));

    hall.session.send_again(hall.now);
    assert!(hall.text().contains("its door is closed"), "{}", hall.text());
    assert!(wall_keeps(&hall) && hall.session.air.flying() == 0);

    hall.session.set_door(true, hall.now);
    hall.wait();
    assert!(wall_keeps(&hall));
    hall.session.send_again(hall.now);
    assert_eq!((hall.title(), hall.session.tally.started_again), ("Started again", 1));
    assert!(hall.session.is_alike() && hall.session.wall_away.is_empty());
    assert_eq!(hall.counts(), (1, 1));
}

#[test]
fn a_wall_that_is_more_than_a_window_back_is_started_again() {
    for (splits, starts) in [(64, 0), (65, 1)] {
        let mut hall = Hall::open(SURE);
        hall.session.set_door(false, hall.now);
        hall.split_deck(splits);
        hall.wait();
        assert_eq!(hall.counts(), (splits, 0));
        if starts == 1 {
            hall.session.send_again(hall.now);
            assert_eq!((hall.title(), hall.counts()), ("Nothing sent", (65, 0)));
        }
        hall.session.set_door(true, hall.now);
        hall.session.send_again(hall.now);
        hall.wait();
        assert!(hall.session.is_alike());
        assert_eq!(hall.session.tally.started_again, starts);
        assert_eq!(hall.session.tally.applied, if starts == 0 { 64 } else { 0 });
    }
}

#[test]
fn a_drawn_member_starts_the_desk_anew_and_the_wall_with_it() {
    let mut hall = Hall::open(SURE);
    hall.edit(Operation::Trim, 60.0, 45.0);
    hall.wait();
    let (mark, view) = (hall.session.desk.mark(), hall.session.view);
    let bytes = hall.session.desk.image().len();
    hall.draw_line((45.0, 30.0), (75.0, 30.0));
    assert_eq!(hall.title(), "Drawn");
    assert!(hall.session.desk.mark() != mark && hall.session.is_alike());
    assert_eq!((hall.counts(), hall.session.desk_away.len()), ((0, 0), 0));
    // Two points and a curve.
    assert_eq!(hall.session.desk.image().len(), bytes + 2 * 21 + 47);
    assert_eq!(hall.session.view, view);

    let revision = hall.session.revision;
    hall.draw_line((45.0, 70.0), (45.0, 70.1));
    assert_eq!(hall.text(), "A line needs two different ends.");
    assert_eq!(
        (hall.session.desk.image().len(), hall.session.revision),
        (bytes + 89, revision + 1)
    );
    hall.draw_line((45.0, 70.0), (45.0, 90.0));
    assert_eq!(hall.session.view.high.y, 90.0);
}

#[test]
fn a_touch_beside_all_members_is_told() {
    let mut hall = Hall::open(SURE);
    hall.edit(Operation::Trim, 60.0, 100.0);
    let (notice, serial) = hall.session.notice().expect("a notice");
    assert_eq!((notice.kind, &*notice.text, serial), (Kind::Told, "No member is there.", 1));
    assert_eq!(hall.session.air.counts.sent, 0);
}

/// The mast's length is given, so that its extend is refused by 19; the next edit takes the highlight away, be
/// it accepted or refused by a number that names no relation.
#[test]
fn the_relation_of_a_refusal_is_told_and_highlighted() {
    let mut hall = Hall::open(SURE);
    hall.edit(Operation::Extend, 128.0, 33.0);
    let (notice, _) = hall.session.notice().expect("a notice");
    assert_eq!((&*notice.title, notice.number), ("Refused: 19", Some(19)));
    assert_eq!(notice.text, "A relation would not be met any more.");
    let relation = notice.relation.clone().expect("19 names a relation");
    assert!(relation.ends_with("is to be 14 long"), "{relation}");
    let highlight = hall.session.highlight.as_ref().expect("it is highlighted");
    assert_eq!((highlight.words(), highlight.curves().len()), (relation, 1));

    hall.edit(Operation::Extend, 60.0, 45.0);
    assert_eq!((hall.title(), hall.session.highlight.is_some()), ("Refused: 18", false));
    hall.edit(Operation::Extend, 128.0, 33.0);
    assert_eq!((hall.title(), hall.session.highlight.is_some()), ("Refused: 19", true));
    hall.edit(Operation::Trim, 60.0, 45.0);
    assert_eq!((hall.title(), hall.session.highlight.is_some()), ("Trimmed", false));
}

/// Whatever the radio does, the wall is alike after so many rounds of sending again.
#[test]
fn a_bad_radio_is_overcome() {
    let mut hall = Hall::open(Settings { loss: 40, repeats: 40, reordering: 60 });
    hall.split_deck(20);
    hall.wait();
    let mut rounds = 0;
    while !hall.session.is_alike() {
        rounds += 1;
        assert!(rounds < 200, "{:?}", hall.session.tally);
        hall.session.send_again(hall.now);
        hall.wait();
    }
    let WallTally { applied, old, ahead, foreign, .. } = hall.session.tally;
    assert_eq!((applied, foreign), (20, 0));
    assert!(rounds > 0 && old > 0 && ahead > 0, "{:?}", hall.session.tally);
    assert!(hall.session.air.counts.overtaken > 0);
}
