//! Desk, wall and the wall's program over generated edits.
#![cfg(upstream)]

use oracle::bytes::u64_at;
use oracle::call::answer;
use oracle::edit::{apply, Report};
use oracle::examples::{l, t};
use oracle::generate::{bridges, catch_ups, edits, lasting, marks, random::Random, runs::Run};
use oracle::image;
use oracle::kept_messages::KeptMessages;
use oracle::message::{self, Edit, Mark, Operation, MARK_AT, MARK_SIZE, OPERATION_AT};
use oracle::program::{self, Parts};
use oracle::refusal::Refusal;
use oracle::replication::{Delivery, Desk, Replica};
use oracle::steps::State;
use oracle::window::{Window, MESSAGES};

const MARK: Mark = 0x0123_4567_89ab_cdef;
const SPLIT: Edit = Edit { operation: Operation::Split, curve: 3, x: 1.0, y: 3.0 };

/// The message that a desk with the mark writes for the split of L, and the image that it leaves.
fn split_of_l(mark: Mark) -> ([u8; message::SIZE], Vec<u8>) {
    let (mut desk, mut out) = (Desk::new(l(), mark), [0; message::SIZE]);
    desk.edit(&SPLIT, &mut out).expect("the example is accepted");
    (out, image::to_bytes(&desk.replica.drawing))
}

#[test]
fn a_wall_follows_its_desk() {
    let mut random = Random::new(21);
    for _ in 0..500 {
        let (start, mark) = (bridges::any_drawing(&mut random), marks::mark(&mut random));
        let mut desk = Desk::new(start.clone(), mark);
        let (mut wall, mut out) = (desk.replica.clone(), [0; message::SIZE]);
        let mut input = [&image::to_bytes(&start)[..], &mark.to_be_bytes()].concat();
        for _ in 0..8 {
            let edit = edits::edit(&mut random, &desk.replica.drawing);
            let before = image::to_bytes(&desk.replica.drawing);
            match desk.edit(&edit, &mut out) {
                Ok(report) => {
                    assert_eq!(wall.deliver(&out), Ok(Delivery::Applied(report)));
                    input.extend(out);
                }
                Err(_) => assert_eq!(image::to_bytes(&desk.replica.drawing), before),
            }
            assert_eq!(wall.count, desk.replica.count);
        }
        let last = image::to_bytes(&desk.replica.drawing);
        assert_eq!(image::to_bytes(&wall.drawing), last);
        assert_eq!(program::run(&input), last);
    }
}

#[test]
fn a_refused_edit_writes_no_message() {
    let mut desk = Desk::new(l(), MARK);
    let mut out = [0x55; 50];
    assert!(desk.edit(&Edit { curve: 9, ..SPLIT }, &mut out).is_err());
    assert_eq!(out, [0x55; 50]);
    assert!(desk.edit(&SPLIT, &mut out).is_ok());
    assert_eq!(out[..5], [0, 0, 0, 34, 2]);
    assert_eq!(out[5..13], MARK.to_be_bytes());
    assert_eq!(out[13..18], [0, 0, 0, 1, 2]);
    assert_eq!(out[38..], [0x55; 12]);
}

#[test]
fn a_desk_keeps_its_last_64_messages() {
    let (mut random, mut past_64) = (Random::new(23), 0);
    for _ in 0..100 {
        let start = lasting::drawing(&mut random);
        let mut desk = Desk::new(start, marks::mark(&mut random));
        let mut kept = KeptMessages::none(0);
        for _ in 0..200 {
            let edit = lasting::edit(&mut random, &desk.replica.drawing);
            let (before, mut out) = (desk.window.clone(), [0; message::SIZE]);
            let room = if random.one_in(20) { message::SIZE - 1 } else { message::SIZE };
            match desk.edit(&edit, &mut out[..room]) {
                Ok(_) => kept.slide(&out),
                Err(_) => assert_eq!(desk.window, before),
            }
            let count = desk.replica.count;
            let wall_count = catch_ups::wall_count(&mut random, count);
            let room = catch_ups::room(&mut random, count.saturating_sub(wall_count));
            let (mut sent, mut expected) = (vec![7; room], vec![7; room]);
            let answer = kept.catch_up(wall_count, &mut expected);
            assert_eq!((desk.catch_up(wall_count, &mut sent), sent), (answer, expected));
        }
        past_64 += usize::from(desk.replica.count > MESSAGES as u32);
    }
    assert!(past_64 > 80, "{past_64}");
}

#[test]
fn a_wall_that_is_started_at_a_count_goes_on_from_there() {
    let mut desk = Desk::new(l(), MARK);
    let steps = [3.0, 2.0, 1.0].map(|x| {
        let mut out = [0; message::SIZE];
        desk.edit(&Edit { x, ..SPLIT }, &mut out).expect("a split of the first piece");
        (out, desk.replica.clone())
    });
    let [(first, _), (second, at_2), (third, at_3)] = &steps;
    let image = image::to_bytes(&at_2.drawing);
    let mut wall = Replica::start_at(&image, MARK, 2).expect("a desk's image is good");
    assert_eq!(wall, *at_2);
    for old in [first, second] {
        assert_eq!((wall.deliver(old), &wall), (Ok(Delivery::Old), at_2));
    }
    assert!(matches!(wall.deliver(third), Ok(Delivery::Applied(_))));
    assert_eq!(wall, *at_3);
    let mut reset = Replica::start_at(&image, MARK, 0).expect("the same image");
    assert_eq!(reset.deliver(third), Err(Refusal::Ahead.into()));
    for (bytes, number) in [(&image[1..], 2), (&image[..14], 1)] {
        let refused = Replica::start_at(bytes, MARK, 2).expect_err("no image");
        assert_eq!(Err(refused), image::read(bytes));
        assert_eq!(refused.number(), number);
    }
}

#[test]
fn the_program_answers_a_refused_image_with_its_number() {
    assert_eq!(program::run(&[]), [0, 0, 0, 2, 1, 1]);
    assert_eq!(program::run(&[0, 0, 0, 0, 1]), [0, 0, 0, 2, 1, 1]);
    assert_eq!(program::run(&[0, 0, 0, 1, 2]), [0, 0, 0, 2, 1, 2]);
    let mut bytes = image::to_bytes(&t());
    bytes.pop();
    assert_eq!(program::run(&bytes), [0, 0, 0, 2, 1, 1]);
    let mut whole = [&image::to_bytes(&l())[..], &MARK.to_be_bytes(), &split_of_l(MARK).0].concat();
    whole[image::LENGTH_SIZE] = 2;
    assert_eq!(program::run(&whole), [0, 0, 0, 2, 1, 2]);
}

#[test]
fn the_program_passes_over_refused_messages_and_a_shorter_rest() {
    let (split, after) = split_of_l(MARK);
    let mut damaged = split;
    damaged[OPERATION_AT] = 9;
    let image = image::to_bytes(&l());
    let input = [&image[..], &MARK.to_be_bytes(), &damaged, &split, &split, &split[..7]].concat();
    assert_eq!(program::run(&input), after);
}

/// The input that the gate runs the engine's program on.
#[test]
fn the_walls_example_has_messages_of_seven_outcomes() {
    let input = include_bytes!("../../crates/wall/stdin");
    let mut outcomes = Vec::new();
    let written = program::run_watched(input, |_, delivered| outcomes.push(delivered));
    let refused = |refusal: Refusal| Err(refusal.into());
    let expected = [
        refused(Refusal::Ahead),
        Ok(Delivery::Applied(Report::default())),
        Ok(Delivery::Old),
        refused(Refusal::Version),
        refused(Refusal::Foreign),
        refused(Refusal::NoCurve),
        refused(Refusal::Length),
    ];
    assert_eq!(outcomes, expected);
    assert_eq!(written, include_bytes!("../../crates/wall/stdout"));
    let foreign = Parts::of(input).messages.chunks(message::SIZE).nth(4).expect("the fifth");
    let message = message::read(foreign, u64_at(foreign, MARK_AT)).expect("its own desk's");
    let wall = image::read(&written).expect("the program writes an image");
    assert!(apply(&wall, &message.edit).is_ok(), "without its mark it would be applied");
}

#[test]
fn the_program_takes_the_mark_from_behind_the_image() {
    let image = image::to_bytes(&l());
    for own in [MARK, 0, Mark::MAX] {
        let (split, after) = split_of_l(own);
        let whole = [&image[..], &own.to_be_bytes(), &split].concat();
        assert_eq!(program::run(&whole), after);
        for size in image.len()..whole.len() {
            assert_eq!(program::run(&whole[..size]), image);
        }
        for other in [!own, own ^ 1, own ^ 1 << 63, own ^ 1 << 31] {
            let (foreign, _) = split_of_l(other);
            let foreign_to_all = [&image[..], &other.to_be_bytes(), &split].concat();
            assert_eq!(program::run(&foreign_to_all), image);
            let with_both = [&image[..], &own.to_be_bytes(), &foreign, &split, &foreign].concat();
            assert_eq!(program::run(&with_both), after);
        }
        assert_eq!(program::run(&[&image[..], &split, &split].concat()), image);
    }
}

#[test]
fn the_program_reads_no_further_than_its_limit() {
    let (split, after) = split_of_l(MARK);
    let image = image::to_bytes(&l());
    let start = [&image[..], &MARK.to_be_bytes()].concat();
    let fill = (program::MAX_INPUT - start.len()) / message::SIZE;
    let refused = [7; message::SIZE];
    let run = |before: usize| {
        let messages = std::iter::repeat_n(refused, before).chain([split]).flatten();
        program::run(&start.iter().copied().chain(messages).collect::<Vec<u8>>())
    };
    assert_eq!(run(fill - 1), after);
    assert_eq!(run(fill), image);
}

#[test]
fn states_in_a_callers_hands_follow_desk_and_wall() {
    let mut random = Random::new(22);
    for _ in 0..300 {
        let run = Run::any(&mut random);
        let mut desk = Desk::new(run.start.clone(), run.mark);
        let start = state(&desk);
        let (mut held, mut window) = (start.clone(), Window::empty());
        for (edit, room) in &run.calls {
            let (mut out, mut other) = (vec![0; *room], vec![0; *room]);
            let step = held.edit_and_keep(edit, &mut out, &mut window);
            let outcome = desk.edit(edit, &mut other);
            let answer = answer(&outcome);
            assert_eq!((step.answer, step.report), (answer, outcome.unwrap_or_default()));
            assert_eq!((out, &window), (other, &desk.window));
            assert_eq!(held.edit(edit, &mut vec![0; *room]), step);
            held = step.state;
            assert_eq!(held, state(&desk));
        }
        let mut wall = start;
        for bytes in run.input()[wall.image.len() + MARK_SIZE..].chunks(message::SIZE) {
            wall = wall.deliver(bytes).state;
        }
        assert_eq!(program::run(&run.input()), wall.image);
    }
}

fn state(desk: &Desk) -> State {
    let Replica { drawing, mark, count } = &desk.replica;
    State { image: image::to_bytes(drawing), mark: *mark, count: *count }
}
