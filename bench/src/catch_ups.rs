//! What a wall that fell behind is sent: an engine's calls beside the oracle's reading.

use crate::bridge::MARK;
use crate::desk_and_wall::Calls;
use crate::timing::{medians_in_turn, Times};
use oracle::generate::random::Random;
use oracle::generate::windows::after_run;
use oracle::message;
use oracle::window::{self, Window, MESSAGES};
use std::hint::black_box;

/// Calls timed as one.
pub const REPEATS: u32 = 4096;
/// Windows for each line.
const SAMPLES: usize = 8;
/// Lines, and how many messages are due.
const LINES: [(&str, u32); 2] =
    [("catch-up of 1 message", 1), ("catch-up of 64 messages", MESSAGES as u32)];

/// A full window of a desk with the mark of all desks, its count, and a wall's.
pub struct Request {
    pub window: Window,
    pub count: u32,
    pub wall_count: u32,
}

impl Request {
    fn new(random: &mut Random, due: u32) -> Request {
        let length = MESSAGES as u32;
        let count = length + random.below(1000) as u32;
        let window = after_run(random, MARK, count, length);
        Request { window, count, wall_count: count - due }
    }

    /// Writes the messages due to the front of the buffer.
    pub fn by_oracle(&self, out: &mut [u8]) {
        let Request { window, count, wall_count } = self;
        let sent = window::catch_up(&window.bytes, *count, MARK, *wall_count, out);
        assert_eq!(sent, Ok((count - wall_count) as usize), "all that is due is held");
    }

    /// The messages due.
    pub fn due(&self) -> Vec<u8> {
        let mut out = vec![0; (self.count - self.wall_count) as usize * message::SIZE];
        self.by_oracle(&mut out);
        out
    }
}

/// Gives the calls of an engine, which do what the oracle does.
pub type Engine = for<'a> fn(&'a Request) -> Calls<'a>;

pub fn run(engine: Engine) {
    for (name, due) in LINES {
        let mut random = Random::new(1);
        let requests: Vec<Request> = (0..SAMPLES).map(|_| Request::new(&mut random, due)).collect();
        print(name, &requests, engine);
    }
}

/// Nanoseconds a call by side, on average over the samples.
fn print(name: &str, requests: &[Request], engine: Engine) {
    let calls = SAMPLES as f64 * f64::from(REPEATS);
    let all: Vec<[f64; 2]> = requests.iter().map(|request| times(request, engine)).collect();
    let [engine, oracle] =
        [0, 1].map(|side| all.iter().map(|times| times[side]).sum::<f64>() / calls);
    Times { engine, oracle }.print_fine(name);
}

fn times(request: &Request, engine: Engine) -> [f64; 2] {
    let (mut calls, mut out) = (engine(request), [0; window::SIZE]);
    medians_in_turn([&mut calls, &mut || {
        for _ in 0..REPEATS {
            black_box(request).by_oracle(black_box(&mut out));
        }
    }])
}
