//! Desk and wall as the probe calls them, each on an image in a buffer of its own, and catch-ups.

use bench::bridge::{Sample, MARK};
use bench::catch_ups;
use bench::desk_and_wall::{self, Calls, Request, COUNT, REPEATS};
use engine::replication::{catch_up, deliver_repeated, desk_repeated, ACCEPTED};
use oracle::call::Call;
use oracle::steps::Step;
use std::hint::black_box;

pub fn run() {
    desk_and_wall::run(calls);
    catch_ups::run(catch_up_calls);
}

fn calls<'a>(sample: &'a Sample, request: &'a Request, expected: &Step) -> Calls<'a> {
    let expected = adds(expected).wrapping_mul(REPEATS);
    Box::new(move || {
        let Call { operation, image, curve, x, y } = black_box(&sample.call);
        let sum = match black_box(request) {
            Request::Edit => desk_repeated(image, COUNT, *operation, *curve, [*x, *y], REPEATS),
            Request::Delivery(message) => deliver_repeated(image, COUNT, MARK, message, REPEATS),
        };
        assert_eq!(sum, expected, "the engine does the same");
    })
}

/// What one call adds to the engine's sum.
fn adds(step: &Step) -> u32 {
    match step {
        Step { answer: 0, old: true, .. } => ACCEPTED,
        Step { answer: 0, state, .. } => ACCEPTED + state.count,
        Step { answer, .. } => *answer,
    }
}

fn catch_up_calls(request: &catch_ups::Request) -> Calls<'_> {
    let catch_ups::Request { window, count, wall_count } = request;
    let call =
        move |out: &mut [u8]| catch_up(black_box(&window.bytes), *count, MARK, *wall_count, out);
    let expected = request.due();
    let mut out = vec![0; expected.len()];
    assert_eq!(call(&mut out), 0, "accepted");
    assert_eq!(out, expected, "the same messages");
    // One by one: the engine's repeated call has a buffer that nobody reads, so that the compiler leaves
    // the writing out.
    Box::new(move || {
        for _ in 0..catch_ups::REPEATS {
            assert_eq!(call(black_box(&mut out)), 0, "the engine does the same");
        }
    })
}
