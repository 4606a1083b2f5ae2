//! The calls that a host makes, on image bytes and a window in its own memory, beside the Rust with the
//! same tests.

use bench::bridge::{Sample, MARK};
use bench::catch_ups;
use bench::desk_and_wall::{self, Calls, Request, COUNT, NEXT, REPEATS};
use bench::timing;
use mulkefi::{raw, LARGEST_IMAGE, MESSAGE_SIZE, WINDOW_SIZE};
use oracle::call::Call;
use oracle::steps::Step;
use oracle::window::Window;
use std::hint::black_box;

fn main() {
    timing::print_heading();
    desk_and_wall::run(calls);
    catch_ups::run(catch_up_calls);
}

fn calls<'a>(sample: &'a Sample, request: &'a Request, expected: &Step) -> Calls<'a> {
    let mut host = Host::new();
    host.check(sample, request, expected);
    let answer = expected.answer;
    Box::new(move || {
        for _ in 0..REPEATS {
            let found = host.call(black_box(&sample.call), black_box(request));
            assert_eq!(found, answer, "the engine does the same");
            black_box(&host);
        }
    })
}

fn catch_up_calls(request: &catch_ups::Request) -> Calls<'_> {
    let mut out = [0; WINDOW_SIZE];
    let expected = request.due();
    assert_eq!(catch_up(request, &mut out), 0, "accepted");
    assert_eq!(out[..expected.len()], expected, "the same messages");
    assert!(out[expected.len()..].iter().all(|byte| *byte == 0), "nothing beyond them");
    Box::new(move || {
        for _ in 0..catch_ups::REPEATS {
            let found = catch_up(black_box(request), black_box(&mut out));
            assert_eq!(found, 0, "the engine does the same");
        }
    })
}

fn catch_up(request: &catch_ups::Request, out: &mut [u8]) -> u32 {
    let catch_ups::Request { window, count, wall_count } = request;
    let (messages, room) = (out.as_mut_ptr(), out.len());
    // SAFETY: both are lent for the call, the window has its size, and the buffer's length is its own.
    unsafe {
        raw::mulkefi_catch_up(window.bytes.as_ptr(), *count, MARK, *wall_count, messages, room)
    }
}

/// The memory that a host lends, with room for any image.
struct Host {
    buffer: Box<[u8; LARGEST_IMAGE]>,
    message: [u8; MESSAGE_SIZE],
    window: [u8; WINDOW_SIZE],
    answer: [u32; 5],
}

impl Host {
    fn new() -> Host {
        Host {
            buffer: Box::new([0; LARGEST_IMAGE]),
            message: [0; MESSAGE_SIZE],
            window: [0; WINDOW_SIZE],
            answer: [0; 5],
        }
    }

    /// Puts the image back into the buffer and makes the call.
    fn call(&mut self, call: &Call, request: &Request) -> u32 {
        let Call { operation, ref image, curve, x, y } = *call;
        let len = image.len();
        self.buffer[..len].copy_from_slice(image);
        let (bytes, room) = (self.buffer.as_mut_ptr(), self.buffer.len());
        let answer = self.answer.as_mut_ptr();
        match request {
            Request::Edit => {
                let (out, lent) = (self.message.as_mut_ptr(), self.message.len());
                let window = self.window.as_mut_ptr();
                // SAFETY: all that is lent is apart, and its lengths are its own.
                unsafe {
                    raw::mulkefi_desk_edit(
                        bytes, room, len, COUNT, MARK, operation, curve, x, y, out, lent, window,
                        answer,
                    )
                }
            }
            Request::Delivery(message) => {
                let (message, size) = (message.as_ptr(), message.len());
                // SAFETY: as above.
                unsafe {
                    raw::mulkefi_wall_deliver(bytes, room, len, COUNT, MARK, message, size, answer)
                }
            }
        }
    }

    /// That the engine answers, writes and leaves what the oracle does.
    fn check(&mut self, sample: &Sample, request: &Request, expected: &Step) {
        let Step { answer, report, state, .. } = expected;
        assert_eq!(self.call(&sample.call, request), *answer, "the same number");
        assert_eq!(self.buffer[..state.image.len()], state.image, "the same image");
        if *answer == 0 {
            let [start, end] = report.ends;
            let numbers = [state.count, state.image.len() as u32, report.removed, start, end];
            assert_eq!(self.answer, numbers, "the same answer");
        }
        if let Request::Edit = request {
            let message = sample.message(MARK, NEXT, sample.call.curve);
            let mut window = Window::empty();
            window.slide(NEXT, &message);
            assert_eq!(self.message, message, "the same message");
            assert_eq!(self.window, window.bytes, "the same window");
        }
    }
}
