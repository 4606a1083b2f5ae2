//! Two desks in one hall: each wall hears both desks and follows its own.
#![cfg(upstream)]

mod hall;

use hall::{is_refusal_of_other_desk, stray};
use oracle::drawing::Drawing;
use oracle::edit::{Refused, Report};
use oracle::generate::marks::{self, Difference};
use oracle::generate::{bridges, edits, random::Random};
use oracle::message::*;
use oracle::refusal::Refusal;
use oracle::replication::{Delivery, Desk, Replica};
use oracle::{bytes, image, message, program};

const HALLS: usize = 2_000;
/// Edits and deliveries in a hall before all messages are delivered once more.
const STEPS: usize = 160;

/// A wall's delivery.
type Deliver = fn(&mut Replica, &[u8]) -> Result<Delivery, Refused>;

/// What came up at the walls.
#[derive(Debug, Default)]
struct Seen {
    applied: usize,
    old: usize,
    ahead: usize,
    foreign: usize,
    /// Foreign messages under the wall's next number.
    foreign_next: usize,
    /// Foreign messages under an old number.
    foreign_old: usize,
    /// Foreign messages whose mark is near the wall's.
    foreign_near: usize,
    /// Bytes with a foreign mark that are refused by 1 or 2.
    no_message: usize,
}

/// A desk, the wall that follows it, and all that the desk wrote.
struct Bridge {
    desk: Desk,
    wall: Replica,
    /// The images at the start and after each accepted edit.
    images: Vec<Vec<u8>>,
    written: Vec<(Vec<u8>, Report)>,
    /// The start and what the wall heard of a message's size, as the program reads them.
    input: Vec<u8>,
}

impl Bridge {
    fn new(drawing: &Drawing, mark: Mark) -> Bridge {
        let desk = Desk::new(drawing.clone(), mark);
        let image = image::to_bytes(drawing);
        let input = [&image[..], &mark.to_be_bytes()].concat();
        Bridge { wall: desk.replica.clone(), desk, images: vec![image], written: vec![], input }
    }

    fn edit(&mut self, random: &mut Random) {
        let edit = edits::edit(random, &self.desk.replica.drawing);
        let mut out = [0; SIZE];
        if let Ok(report) = self.desk.edit(&edit, &mut out) {
            self.written.push((out.to_vec(), report));
            self.images.push(image::to_bytes(&self.desk.replica.drawing));
        }
    }

    /// The wall is given bytes: its desk's next message is applied, an earlier one is old, a later one
    /// ahead, and all else is refused. Its drawing is the desk's after as many edits as it counts.
    fn hear(&mut self, bytes: &[u8], deliver: Deliver, seen: &mut Seen) -> Result<(), String> {
        let count = self.wall.count as usize;
        let outcome = deliver(&mut self.wall, bytes);
        let place = self.written.iter().position(|(message, _)| message == bytes);
        let is_right = match place {
            Some(place) if place < count => outcome == Ok(Delivery::Old),
            Some(place) if place > count => outcome == Err(Refusal::Ahead.into()),
            Some(place) => outcome == Ok(Delivery::Applied(self.written[place].1)),
            None => is_refusal_of_other_desk(&outcome),
        };
        let expected = count + usize::from(place == Some(count));
        let Replica { drawing, mark, count: found } = &self.wall;
        let has_followed =
            *found as usize == expected && image::to_bytes(drawing) == self.images[expected];
        if !is_right || !has_followed {
            return Err(format!("{mark:016x} at {count}, given {bytes:02x?}: {outcome:?}"));
        }
        seen.add(*mark, count, bytes, &outcome);
        if bytes.len() == SIZE {
            self.input.extend(bytes);
        }
        Ok(())
    }
}

impl Seen {
    fn add(&mut self, own: Mark, count: usize, bytes: &[u8], outcome: &Result<Delivery, Refused>) {
        match outcome {
            Ok(Delivery::Applied(_)) => self.applied += 1,
            Ok(Delivery::Old) => self.old += 1,
            Err(Refused { refusal: Refusal::Ahead, .. }) => self.ahead += 1,
            Err(Refused { refusal: Refusal::Foreign, .. }) => {
                let number = bytes::u32_at(bytes, NUMBER_AT) as usize;
                let difference = Difference::between(own, bytes::u64_at(bytes, MARK_AT));
                self.foreign += 1;
                self.foreign_next += usize::from(number == count + 1);
                self.foreign_old += usize::from((1..=count).contains(&number));
                self.foreign_near += usize::from(difference != Difference::Far);
            }
            Err(_) => self.no_message += 1,
        }
    }
}

/// What is on the air: a message of either desk, often the next for its wall, or bytes of neither.
fn on_air(random: &mut Random, bridges: &[Bridge; 2]) -> Vec<u8> {
    let bridge = &bridges[random.below(2)];
    let place = match random.one_in(2) {
        true => bridge.wall.count as usize,
        false => random.below(bridge.written.len() + 1),
    };
    let message = bridge.written.get(place).map(|(message, _)| message.clone());
    match message {
        Some(message) if !random.one_in(4) => message,
        message => {
            stray(random, bridges.each_ref().map(|bridge| bridge.desk.replica.mark), message)
        }
    }
}

/// A hall in which edits and deliveries come in any order and a wall does not hear everything; at last
/// both walls hear all messages of both desks in order.
fn follow_hall(random: &mut Random, deliver: Deliver, seen: &mut Seen) -> Result<(), String> {
    let own = marks::mark(random);
    let start = bridges::any_drawing(random);
    // A neighbour's edits apply best to the drawing that they were made for.
    let other = if random.one_in(2) { start.clone() } else { bridges::any_drawing(random) };
    let mut bridges = [Bridge::new(&start, own), Bridge::new(&other, marks::foreign(random, own))];
    for _ in 0..STEPS {
        if random.one_in(2) {
            bridges[random.below(2)].edit(random);
            continue;
        }
        let bytes = on_air(random, &bridges);
        for bridge in &mut bridges {
            if !random.one_in(5) {
                bridge.hear(&bytes, deliver, seen)?;
            }
        }
    }
    let all = bridges.iter().flat_map(|bridge| bridge.written.clone());
    for (bytes, _) in all.collect::<Vec<_>>() {
        for bridge in &mut bridges {
            bridge.hear(&bytes, deliver, seen)?;
        }
    }
    for Bridge { desk, wall, images, input, .. } in &bridges {
        assert_eq!(wall.count, desk.replica.count);
        assert_eq!(Some(&program::run(input)), images.last());
    }
    Ok(())
}

#[test]
fn each_wall_follows_its_own_desk() {
    let (mut random, mut seen) = (Random::new(41), Seen::default());
    for number in 0..HALLS {
        if let Err(fault) = follow_hall(&mut random, Replica::deliver, &mut seen) {
            panic!("hall {number}: {fault}");
        }
    }
    println!("{seen:#?}");
    assert!(seen.applied > 25_000 && seen.old > 30_000 && seen.ahead > 3_500);
    assert!(seen.foreign_next > 14_000 && seen.foreign_old > 35_000);
    assert!(seen.foreign_near > 80_000 && seen.foreign > seen.foreign_near + 40_000);
    assert!(seen.no_message > 30_000);
}

/// The delivery of a wall that compares only those bits of the mark that are set here.
fn deliver_by<const BITS: Mark>(wall: &mut Replica, bytes: &[u8]) -> Result<Delivery, Refused> {
    let mark = bytes::u64_at(bytes, MARK_AT);
    let taken_for_own = (mark ^ wall.mark) & BITS == 0;
    let message = message::read(bytes, if taken_for_own { mark } else { wall.mark })?;
    wall.deliver(&to_bytes(&message, wall.mark))
}

#[test]
fn a_wall_that_follows_a_neighbour_is_found() {
    const LOW_HALF: Mark = u32::MAX as Mark;
    let is_found = |deliver: Deliver| {
        let mut random = Random::new(42);
        (0..50).any(|_| follow_hall(&mut random, deliver, &mut Seen::default()).is_err())
    };
    assert!(!is_found(deliver_by::<{ Mark::MAX }>));
    assert!(is_found(deliver_by::<0>));
    assert!(is_found(deliver_by::<LOW_HALF>));
    assert!(is_found(deliver_by::<{ !LOW_HALF }>));
    assert!(is_found(deliver_by::<{ !1 }>));
}
