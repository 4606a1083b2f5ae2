//! An edit at a desk and a delivery to a wall: an engine's calls beside the Rust with the same tests.

use crate::bridge::{samples, Sample, MARK, SIZES, WORKS};
use crate::timing::{medians_in_turn, Times};
use cad_sketch::Sketch;
use oracle::convert::to_drawing;
use oracle::drawing::Id;
use oracle::message::Mark;
use oracle::steps::{State, Step};
use oracle::window::Window;
use oracle::{image, message, upstream};
use std::hint::black_box;

/// Calls timed as one.
pub const REPEATS: u32 = 128;
/// Edits before this one.
pub const COUNT: u32 = 5;
pub const NEXT: u32 = COUNT + 1;

/// What is asked of a sample's desk or wall.
pub enum Request {
    /// The sample's edit.
    Edit,
    /// A message's delivery.
    Delivery([u8; message::SIZE]),
}

impl Request {
    fn delivery(sample: &Sample, mark: Mark, number: u32, curve: Id) -> Request {
        Request::Delivery(sample.message(mark, number, curve))
    }

    fn by_oracle(&self, sample: &Sample) -> Step {
        let state = State { image: sample.call.image.clone(), mark: MARK, count: COUNT };
        match self {
            Request::Edit => state.edit(&sample.edit, &mut [0; message::SIZE]),
            Request::Delivery(message) => state.deliver(message),
        }
    }

    /// The Rust that is timed; nothing comes of a delivery that applies no edit.
    fn by_rust(&self, sample: &Sample, out: &mut [u8], window: &mut Window) -> Option<Sketch> {
        match self {
            Request::Edit => Some(sample.desk(COUNT, out, window)),
            Request::Delivery(message) => sample.deliver(COUNT, message),
        }
    }
}

/// An engine's call, `REPEATS` times.
pub type Calls<'a> = Box<dyn FnMut() + 'a>;

/// Gives the calls of an engine, which do what the oracle does.
pub type Engine = for<'a> fn(&'a Sample, &'a Request, &Step) -> Calls<'a>;

pub fn run(engine: Engine) {
    if !upstream::PRESENT {
        return println!("desk and wall: the upstream source is absent, skipped");
    }
    for work in WORKS {
        for curves in SIZES {
            let samples = samples(curves, work);
            let name = format!("{}, {curves} curves", work.name);
            print(&format!("desk: {name}"), &samples, engine, |_| Request::Edit);
            print(&format!("wall: {name}"), &samples, engine, |sample| {
                Request::delivery(sample, MARK, NEXT, sample.call.curve)
            });
        }
    }
    SIZES.into_iter().for_each(|curves| run_without_edit(curves, engine));
}

/// Deliveries that apply no edit.
fn run_without_edit(curves: usize, engine: Engine) {
    let samples = samples(curves, WORKS[0]);
    let timed = |message: &str, mark, number, curve: fn(&Sample) -> Id| {
        print(&format!("wall: {message}, {curves} curves"), &samples, engine, |sample| {
            Request::delivery(sample, mark, number, curve(sample))
        });
    };
    timed("foreign message", MARK + 1, NEXT, |sample| sample.call.curve);
    timed("old message", MARK, COUNT, |sample| sample.call.curve);
    timed("message ahead", MARK, NEXT + 1, |sample| sample.call.curve);
    timed("no such curve", MARK, NEXT, |_| 0);
}

/// Nanoseconds a call by side, on average over the samples.
fn print(name: &str, samples: &[Sample], engine: Engine, request: impl Fn(&Sample) -> Request) {
    let calls = samples.len() as f64 * f64::from(REPEATS);
    let times = samples.iter().map(|sample| times(sample, &request(sample), engine));
    let all: Vec<[f64; 2]> = times.collect();
    let [engine, oracle] =
        [0, 1].map(|side| all.iter().map(|times| times[side]).sum::<f64>() / calls);
    Times { engine, oracle }.print(name);
}

fn times(sample: &Sample, request: &Request, engine: Engine) -> [f64; 2] {
    let expected = request.by_oracle(sample);
    let mut window = Window::empty();
    let after = request.by_rust(sample, &mut [0; message::SIZE], &mut window);
    let image = after.map(|sketch| image::to_bytes(&to_drawing(&sketch)));
    let image = image.as_ref().unwrap_or(&sample.call.image);
    assert_eq!(*image, expected.state.image, "the Rust that is timed makes the oracle's image");
    let mut calls = engine(sample, request, &expected);
    medians_in_turn([&mut calls, &mut || {
        for _ in 0..REPEATS {
            let mut out = [0; message::SIZE];
            let window = black_box(&mut window);
            black_box((black_box(request).by_rust(black_box(sample), &mut out, window), out));
        }
    }])
}
