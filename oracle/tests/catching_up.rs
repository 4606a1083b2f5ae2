//! Walls behind doors in a hall with two desks: they miss messages, catch up from their desk's window, and
//! are started again, at any time and where they are too far back. The claim is tested after every
//! delivery and every start.
#![cfg(upstream)]

mod hall;

use hall::{is_refusal_of_other_desk, stray};
use oracle::bytes::u32_at;
use oracle::drawing::Drawing;
use oracle::edit::{Refused, Report};
use oracle::families::Families;
use oracle::family_counts::FamilyCounts;
use oracle::generate::{lasting, marks, random::Random};
use oracle::image;
use oracle::message::*;
use oracle::refusal::Refusal;
use oracle::replication::{Delivery, Desk, Replica};
use oracle::window::{self, MESSAGES};
use std::time::Instant;

/// Halls in every run of the tests, and in one that is asked for.
const HALLS: usize = 3_000;
const MANY_HALLS: usize = 20_000;
/// What happens in a hall before all walls are brought level.
const STEPS: usize = 600;
const WALLS: usize = 2;

/// What the desks and walls of a hall do; a fault does one of these otherwise.
#[derive(Clone, Copy)]
struct Calls {
    edit: fn(&mut Desk, &Edit, &mut [u8]) -> Result<Report, Refused>,
    catch_up: fn(&Desk, u32, &mut [u8]) -> Result<usize, Refusal>,
    deliver: fn(&mut Replica, &[u8]) -> Result<Delivery, Refused>,
    /// A wall is started again from an image and a count.
    start: fn(&mut Replica, &[u8], u32),
}

const CALLS: Calls = Calls {
    edit: Desk::edit,
    catch_up: Desk::catch_up,
    deliver: Replica::deliver,
    start: |wall, image, count| *wall = started(image, wall.mark, count),
};

fn started(image: &[u8], mark: Mark, count: u32) -> Replica {
    Replica::start_at(image, mark, count).expect("a desk's image is accepted")
}

/// What came up.
#[derive(Debug, Default)]
struct Seen {
    accepted: usize,
    refused: usize,
    /// Desks that made more edits than a window has room for.
    desks_past_64: usize,
    applied: usize,
    old: usize,
    /// Old ones of before the wall's last start.
    old_of_before: usize,
    ahead: usize,
    /// What is refused by 1, 2 or 28.
    not_own: usize,
    /// Catch-ups by what they answered.
    sent: usize,
    sent_none: usize,
    sent_64: usize,
    sent_from_last_slot_to_first: usize,
    messages_sent: usize,
    refused_by_25: usize,
    refused_by_26: usize,
    refused_by_26_at_65: usize,
    refused_by_27: usize,
    /// Walls that heard just what a catch-up wrote, or with others' between.
    brought_level: usize,
    starts: usize,
    starts_after_26: usize,
    /// Starts of a wall that was level.
    starts_of_level: usize,
    /// Edits applied since the last start, if that was at a later count than 0.
    applied_since_later_start: usize,
    families: FamilyCounts,
}

/// A wall, its door, and what came of it since its last start.
struct Wall {
    replica: Replica,
    is_open: bool,
    start: usize,
    reports: Vec<Report>,
    families: Families,
}

/// A desk, the walls that follow it, and all that the desk wrote.
struct Bridge {
    desk: Desk,
    walls: [Wall; WALLS],
    /// The images at the start and after each accepted edit.
    images: Vec<Vec<u8>>,
    written: Vec<[u8; SIZE]>,
    reports: Vec<Report>,
}

impl Wall {
    /// A wall that was just started at a count of its desk's.
    fn new(replica: Replica, start: usize) -> Wall {
        let families = Families::new(&replica.drawing);
        Wall { replica, is_open: true, start, reports: vec![], families }
    }
}

impl Bridge {
    fn new(drawing: &Drawing, mark: Mark) -> Bridge {
        let desk = Desk::new(drawing.clone(), mark);
        let walls = std::array::from_fn(|_| Wall::new(desk.replica.clone(), 0));
        let images = vec![image::to_bytes(drawing)];
        Bridge { desk, walls, images, written: vec![], reports: vec![] }
    }

    fn edit(&mut self, random: &mut Random, calls: &Calls, seen: &mut Seen) {
        let edit = lasting::edit(random, &self.desk.replica.drawing);
        let mut out = [0; SIZE];
        match (calls.edit)(&mut self.desk, &edit, &mut out) {
            Err(_) => seen.refused += 1,
            Ok(report) => {
                seen.accepted += 1;
                self.written.push(out);
                self.reports.push(report);
                self.images.push(image::to_bytes(&self.desk.replica.drawing));
            }
        }
    }

    /// The place, from 0, of the message that these bytes are, if the desk wrote them.
    fn place(&self, bytes: &[u8]) -> Option<usize> {
        let number = (bytes.len() == SIZE).then(|| u32_at(bytes, NUMBER_AT) as usize)?;
        let place = number.checked_sub(1)?;
        (self.written.get(place)? == bytes).then_some(place)
    }

    /// A wall's drawing is its desk's after as many edits as it counts, and the reports since its start
    /// are the desk's.
    fn claim(&self, wall: usize) -> Result<(), String> {
        let Wall { replica, start, reports, .. } = &self.walls[wall];
        let count = replica.count as usize;
        let is_within = *start <= count && count <= self.written.len();
        if !is_within || image::to_bytes(&replica.drawing) != self.images[count] {
            return Err(format!("a wall that was started at {start} is not its desk's at {count}"));
        }
        if *reports != self.reports[*start..count] {
            return Err(format!("reports from {start} to {count} are {reports:?}"));
        }
        Ok(())
    }

    /// A wall is given bytes: its desk's next message is applied, an earlier one is old, a later one
    /// ahead, and all else is refused.
    fn hear(
        &mut self,
        wall: usize,
        bytes: &[u8],
        calls: &Calls,
        seen: &mut Seen,
    ) -> Result<(), String> {
        let place = self.place(bytes);
        let Wall { replica, start, reports, families, .. } = &mut self.walls[wall];
        let (before, count) = (replica.drawing.clone(), replica.count as usize);
        let outcome = (calls.deliver)(replica, bytes);
        let is_right = match place {
            Some(place) if place < count => outcome == Ok(Delivery::Old),
            Some(place) if place > count => outcome == Err(Refusal::Ahead.into()),
            Some(place) => outcome == Ok(Delivery::Applied(self.reports[place])),
            None => is_refusal_of_other_desk(&outcome),
        };
        if !is_right || replica.count as usize != count + usize::from(place == Some(count)) {
            return Err(format!("at {count}, started at {start}, given {bytes:02x?}: {outcome:?}"));
        }
        match (outcome, place) {
            (Ok(Delivery::Applied(report)), _) => {
                reports.push(report);
                families.follow(&before, &replica.drawing, u32_at(bytes, CURVE_AT), &report);
                seen.families.add(&families.check(&replica.drawing)?);
                seen.applied += 1;
                seen.applied_since_later_start += usize::from(*start > 0);
            }
            (Ok(Delivery::Old), place) => {
                seen.old += 1;
                seen.old_of_before += usize::from(place < Some(*start));
            }
            (Err(_), Some(_)) => seen.ahead += 1,
            (Err(_), None) => seen.not_own += 1,
        }
        self.claim(wall)
    }

    /// The desk is asked for every message after a count: it sends them in order, or refuses and leaves
    /// the buffer.
    fn ask(
        &self,
        random: &mut Random,
        count: u32,
        calls: &Calls,
        seen: &mut Seen,
    ) -> Result<Result<Vec<u8>, Refusal>, String> {
        let written = self.written.len();
        let place = (count as usize).min(written);
        let (due, size) = (written - place, (written - place) * SIZE);
        let room = random.weighted(&[(6, window::SIZE), (3, size), (1, size.saturating_sub(1))]);
        let mut out: Vec<u8> = (0..room).map(|_| random.bits() as u8).collect();
        let before = out.clone();
        let answer = (calls.catch_up)(&self.desk, count, &mut out);
        let (expected, sent) = match due {
            _ if count as usize > written => (Err(Refusal::CountAbove), 0),
            _ if due > MESSAGES => (Err(Refusal::LeftWindow), 0),
            _ if room < size => (Err(Refusal::Buffer), 0),
            _ => (Ok(due), size),
        };
        let messages = self.written[place..].concat();
        if answer != expected || out[..sent] != messages[..sent] || out[sent..] != before[sent..] {
            return Err(format!("asked from {count} at {written}, {room} bytes: {answer:?}"));
        }
        seen.add_catch_up(written, due, &answer);
        Ok(answer.map(|_| messages))
    }

    /// A wall is started again from the desk's present image and count.
    fn start_again(&mut self, wall: usize, calls: &Calls, seen: &mut Seen) -> Result<(), String> {
        let Replica { drawing, count, .. } = &self.desk.replica;
        let Wall { replica, is_open, .. } = &self.walls[wall];
        seen.starts += 1;
        seen.starts_of_level += usize::from(replica.count == *count);
        let mut replica = replica.clone();
        (calls.start)(&mut replica, &image::to_bytes(drawing), *count);
        self.walls[wall] = Wall { is_open: *is_open, ..Wall::new(replica, *count as usize) };
        self.claim(wall)?;
        let Wall { replica, families, .. } = &self.walls[wall];
        families.check(&replica.drawing).map(|_| ())
    }

    /// A wall asks for what it lacks. What it is sent comes to it whole, at times with others' messages
    /// between, and brings it level with its desk; or it comes in part and out of order. A wall that is
    /// too far back is mostly started again.
    fn catch_up(
        &mut self,
        random: &mut Random,
        wall: usize,
        other: &Bridge,
        calls: &Calls,
        seen: &mut Seen,
    ) -> Result<(), String> {
        let messages = match self.ask(random, self.walls[wall].replica.count, calls, seen)? {
            Ok(messages) => messages,
            Err(Refusal::LeftWindow) if !random.one_in(4) => {
                seen.starts_after_26 += 1;
                return self.start_again(wall, calls, seen);
            }
            Err(_) => return Ok(()),
        };
        let mut messages: Vec<&[u8]> = messages.chunks(SIZE).collect();
        let is_whole = !random.one_in(4);
        if !is_whole {
            shuffle(random, &mut messages);
        }
        let has_others = random.one_in(3);
        for bytes in messages {
            if has_others && random.one_in(2) {
                let foreign = other.some_message(random).unwrap_or_default();
                self.hear(wall, &foreign, calls, seen)?;
            }
            self.hear(wall, bytes, calls, seen)?;
        }
        if is_whole {
            self.level(wall)?;
            seen.brought_level += 1;
        }
        Ok(())
    }

    /// A wall has its desk's drawing and count.
    fn level(&self, wall: usize) -> Result<(), String> {
        let (Replica { drawing, count, .. }, desk) =
            (&self.walls[wall].replica, &self.desk.replica);
        if *count != desk.count || image::to_bytes(drawing) != image::to_bytes(&desk.drawing) {
            return Err(format!("a wall caught up to {count}, and its desk is at {}", desk.count));
        }
        Ok(())
    }

    /// A message that the desk wrote, often one of the last or the next for a wall.
    fn some_message(&self, random: &mut Random) -> Option<Vec<u8>> {
        let written = self.written.len();
        let place = match random.below(4) {
            0 => random.below(written + 1),
            1 => written.saturating_sub(1 + random.below(3)),
            _ => self.walls[random.below(WALLS)].replica.count as usize,
        };
        self.written.get(place).map(|message| message.to_vec())
    }
}

/// Some are lost, some come twice, and some in another order.
fn shuffle<T: Copy>(random: &mut Random, messages: &mut Vec<T>) {
    for _ in 0..1 + random.below(4) {
        if messages.is_empty() {
            return;
        }
        let (at, other) = (random.below(messages.len()), random.below(messages.len()));
        match random.below(3) {
            0 => drop(messages.remove(at)),
            1 => messages.insert(other, messages[at]),
            _ => messages.swap(at, other),
        }
    }
}

impl Seen {
    fn add_catch_up(&mut self, written: usize, due: usize, answer: &Result<usize, Refusal>) {
        match answer {
            Ok(_) => {
                let turns = written / MESSAGES > (written - due + 1) / MESSAGES;
                self.sent += 1;
                self.messages_sent += due;
                self.sent_none += usize::from(due == 0);
                self.sent_64 += usize::from(due == MESSAGES);
                self.sent_from_last_slot_to_first += usize::from(turns);
            }
            Err(Refusal::Buffer) => self.refused_by_25 += 1,
            Err(Refusal::LeftWindow) => {
                self.refused_by_26 += 1;
                self.refused_by_26_at_65 += usize::from(due == MESSAGES + 1);
            }
            Err(_) => self.refused_by_27 += 1,
        }
    }
}

/// A count that no wall need have: about 64 before the desk's, about the desk's, or any.
fn some_count(random: &mut Random, count: u32) -> u32 {
    let any = random.bits() as u32;
    let about = |back: usize| count.saturating_sub(back as u32);
    match random.below(4) {
        0 => about(MESSAGES - 2 + random.below(5)),
        1 => about(random.below(MESSAGES)),
        2 => count.saturating_add(random.below(3) as u32),
        _ => random.pick(&[0, u32::MAX, any]),
    }
}

/// One thing that happens in a hall.
fn step(
    random: &mut Random,
    bridges: &mut [Bridge; 2],
    calls: &Calls,
    seen: &mut Seen,
) -> Result<(), String> {
    let wall = random.below(WALLS);
    bridges.rotate_left(random.below(2));
    let [bridge, other] = bridges;
    match random.below(200) {
        0..=119 => bridge.edit(random, calls, seen),
        120..=169 => {
            let marks = [bridge.desk.replica.mark, other.desk.replica.mark];
            let message = bridge.some_message(random);
            let bytes = match message {
                Some(message) if !random.one_in(4) => message,
                message => stray(random, marks, message),
            };
            for bridge in bridges {
                for wall in 0..WALLS {
                    if bridge.walls[wall].is_open && !random.one_in(5) {
                        bridge.hear(wall, &bytes, calls, seen)?;
                    }
                }
            }
        }
        170..=185 if bridge.walls[wall].is_open => {
            bridge.catch_up(random, wall, other, calls, seen)?;
        }
        170..=192 => {
            let count = some_count(random, bridge.desk.replica.count);
            let _ = bridge.ask(random, count, calls, seen)?;
        }
        193..=198 => {
            let is_open = &mut bridge.walls[wall].is_open;
            // Doors are shut longer than open.
            *is_open = !*is_open && random.one_in(4);
            if *is_open {
                bridge.catch_up(random, wall, other, calls, seen)?;
            }
        }
        _ => bridge.start_again(wall, calls, seen)?,
    }
    Ok(())
}

/// A hall in which all this comes in any order; at last each wall catches up, or is started again where
/// it is too far back.
fn follow_hall(random: &mut Random, calls: &Calls, seen: &mut Seen) -> Result<(), String> {
    let own = marks::mark(random);
    let start = lasting::drawing(random);
    // A neighbour's edits apply best to the drawing that they were made for.
    let other = if random.one_in(2) { start.clone() } else { lasting::drawing(random) };
    let mut bridges = [Bridge::new(&start, own), Bridge::new(&other, marks::foreign(random, own))];
    for _ in 0..STEPS {
        step(random, &mut bridges, calls, seen)?;
    }
    for bridge in &mut bridges {
        seen.desks_past_64 += usize::from(bridge.written.len() > MESSAGES);
        for wall in 0..WALLS {
            let mut out = [0; window::SIZE];
            match (calls.catch_up)(&bridge.desk, bridge.walls[wall].replica.count, &mut out) {
                Err(_) => {
                    seen.starts_after_26 += 1;
                    bridge.start_again(wall, calls, seen)?;
                }
                Ok(due) => {
                    for bytes in out.chunks(SIZE).take(due) {
                        bridge.hear(wall, bytes, calls, seen)?;
                    }
                }
            }
            bridge.level(wall)?;
        }
    }
    Ok(())
}

fn follow_halls(halls: usize, seed: u64) -> Seen {
    let (mut random, mut seen) = (Random::new(seed), Seen::default());
    let start = Instant::now();
    for number in 0..halls {
        if let Err(fault) = follow_hall(&mut random, &CALLS, &mut seen) {
            panic!("hall {number}: {fault}");
        }
    }
    println!("{halls} halls in {:.1} s: {seen:#?}", start.elapsed().as_secs_f64());
    seen
}

#[test]
fn a_wall_agrees_with_its_desk_from_its_last_start_on() {
    let seen = follow_halls(HALLS, 61);
    let at_least = |count: usize, each: usize| assert!(count > each * HALLS / 10, "{count}");
    at_least(seen.desks_past_64, 18);
    at_least(seen.applied, 1_500);
    at_least(seen.applied_since_later_start, 500);
    at_least(seen.old_of_before, 30);
    at_least(seen.ahead, 200);
    at_least(seen.not_own, 700);
    at_least(seen.sent_64, 10);
    at_least(seen.sent_from_last_slot_to_first, 50);
    at_least(seen.brought_level, 50);
    at_least(seen.refused_by_25, 20);
    at_least(seen.refused_by_26_at_65, 10);
    at_least(seen.refused_by_27, 100);
    at_least(seen.starts, 40);
    at_least(seen.starts_after_26, 15);
    at_least(seen.starts_of_level, 1);
    at_least(seen.families.long_chains, 7_000);
    at_least(seen.families.long_rings, 1_000);
}

#[test]
#[ignore = "it takes a minute or two"]
fn so_it_does_in_many_halls() {
    follow_halls(MANY_HALLS, 62);
}

/// Whether a hall goes wrong in which desks or walls do so.
fn is_found(calls: Calls) -> bool {
    let (mut random, mut seen) = (Random::new(63), Seen::default());
    (0..20).any(|_| follow_hall(&mut random, &calls, &mut seen).is_err())
}

#[test]
fn a_wall_that_is_started_wrong_is_found() {
    assert!(!is_found(CALLS));
    let resets_its_count: fn(&mut Replica, &[u8], u32) =
        |wall, image, _| *wall = started(image, wall.mark, 0);
    let keeps_its_count: fn(&mut Replica, &[u8], u32) =
        |wall, image, _| *wall = started(image, wall.mark, wall.count);
    let keeps_its_drawing: fn(&mut Replica, &[u8], u32) = |wall, _, count| wall.count = count;
    let goes_on: fn(&mut Replica, &[u8], u32) = |_, _, _| ();
    for start in [resets_its_count, keeps_its_count, keeps_its_drawing, goes_on] {
        assert!(is_found(Calls { start, ..CALLS }));
    }
}

/// A later message is taken for the next one.
fn skip_missed(wall: &mut Replica, bytes: &[u8]) -> Result<Delivery, Refused> {
    let missed = read(bytes, wall.mark).map_or(0, |message| message.number - 1);
    wall.count = wall.count.max(missed);
    wall.deliver(bytes)
}

/// An old message is applied again where it still can be.
fn apply_again(wall: &mut Replica, bytes: &[u8]) -> Result<Delivery, Refused> {
    let before = read(bytes, wall.mark).map_or(wall.count, |message| message.number - 1);
    let mut earlier = Replica { count: before.min(wall.count), ..wall.clone() };
    let delivered = earlier.deliver(bytes)?;
    *wall = Replica { count: wall.count.max(earlier.count), ..earlier };
    Ok(delivered)
}

#[test]
fn a_wall_that_takes_other_messages_than_the_next_is_found() {
    for deliver in [skip_missed, apply_again] {
        assert!(is_found(Calls { deliver, ..CALLS }));
    }
}

/// The desk keeps its last 63 messages: the one of 63 edits before goes.
fn keep_63(desk: &mut Desk, edit: &Edit, out: &mut [u8]) -> Result<Report, Refused> {
    let report = desk.edit(edit, out)?;
    desk.window.slide(desk.replica.count + 1, &[0; SIZE]);
    Ok(report)
}

/// The window slides on a refused edit too.
fn slide_always(desk: &mut Desk, edit: &Edit, out: &mut [u8]) -> Result<Report, Refused> {
    let number = desk.replica.count + 1;
    let message = to_bytes(&Message { number, edit: *edit }, desk.replica.mark);
    desk.edit(edit, out).inspect_err(|_| desk.window.slide(number, &message))
}

/// The messages of some curves' edits are not kept.
fn keep_some(desk: &mut Desk, edit: &Edit, out: &mut [u8]) -> Result<Report, Refused> {
    let window = desk.window.clone();
    let report = desk.edit(edit, out)?;
    if edit.curve % 16 == 0 {
        desk.window = window;
    }
    Ok(report)
}

#[test]
fn a_desk_that_keeps_its_messages_wrong_is_found() {
    for edit in [keep_63, slide_always, keep_some] {
        assert!(is_found(Calls { edit, ..CALLS }));
    }
    let from_its_own: fn(&Desk, u32, &mut [u8]) -> Result<usize, Refusal> =
        |desk, wall_count, out| desk.catch_up(wall_count.saturating_sub(1), out);
    assert!(is_found(Calls { catch_up: from_its_own, ..CALLS }));
}
