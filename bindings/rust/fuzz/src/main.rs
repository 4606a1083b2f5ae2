//! Any bytes through the engine's C interface: `fuzz [SECONDS [SEED]] [--planted FAULT]`.
//!
//! Every buffer lies against a page that may not be touched, before it or behind it, and what is only
//! lent for reading may not be written. The calls run on a thread with the stack that the header asks
//! for. After each call: nothing outside of what an accepted call may write has changed, a refused one
//! has changed nothing, a place comes with 13 and 19 alone and is one of its table's, a delivery is refused
//! by the numbers of images and messages, 28 among them, just where plain readers in Rust refuse it, an
//! accepted edit has put its message into the slot of the window that its number has, a catch-up answers and
//! writes what a plain reading of the window does, and the call has ended in time. A planted fault stands in
//! for the engine's call, to show that it is seen.

mod answers;
mod buffers;
mod calls;
mod catch_up;
mod desk;
mod guard;
mod inputs;
mod magnitude;
mod planted;
mod planted_catch_ups;
mod roots;
mod tally;
mod test;
mod wall;
mod watchdog;

use calls::{Calls, ENGINE};
use oracle::generate::random::Random;
use std::process::ExitCode;
use std::thread;
use std::time::{Duration, Instant};
use tally::Tally;

const SECONDS: u64 = 40;
/// The stack that the header tells a host to give a thread, in bytes.
const STACK: usize = 128 * 1024;
/// How many seconds a single call may take.
const TIME_LIMIT: u32 = 30;
/// A planted fault is to be seen sooner.
const TIME_LIMIT_WITH_A_FAULT: u32 = 2;

struct Options {
    seconds: u64,
    seed: u64,
    calls: Calls,
    time_limit: u32,
}

fn main() -> ExitCode {
    let options = match options() {
        Ok(options) => options,
        Err(sentence) => {
            eprintln!("fuzz: {sentence}\n\nfuzz [SECONDS [SEED]] [--planted FAULT]");
            planted::all().for_each(|(name, what)| eprintln!("  {name:<21} {what}"));
            return ExitCode::from(2);
        }
    };
    watchdog::begin(options.seed, options.time_limit);
    let mut tally = Tally::default();
    let outcome = run_on_thread(&options, &mut tally);
    print!("{tally}");
    match outcome {
        Ok(()) => {
            println!("no fault in {} s, seed {}", options.seconds, options.seed);
            ExitCode::SUCCESS
        }
        Err(fault) => {
            println!("fault in case {}, seed {}: {fault}", watchdog::case(), options.seed);
            ExitCode::FAILURE
        }
    }
}

/// The options, or a sentence on what is wrong with them.
fn options() -> Result<Options, String> {
    let mut arguments: Vec<String> = std::env::args().skip(1).collect();
    let (mut calls, mut time_limit) = (ENGINE, TIME_LIMIT);
    if let Some(at) = arguments.iter().position(|argument| argument == "--planted") {
        let fault = arguments.get(at + 1).ok_or("--planted wants the name of a fault")?;
        let none = || format!("{fault:?} is no fault that can be planted");
        calls = planted::by_name(fault).ok_or_else(none)?;
        time_limit = TIME_LIMIT_WITH_A_FAULT;
        arguments.drain(at..at + 2);
    }
    if let Some(more) = arguments.get(2) {
        return Err(format!("{more:?} comes after seconds and seed"));
    }
    let number = |at: usize, what: &str, default: u64| match arguments.get(at) {
        None => Ok(default),
        Some(text) => text
            .parse()
            .map_err(|_| format!("{text:?} is no {what}, which is a whole number from 0")),
    };
    let seconds = number(0, "number of seconds", SECONDS)?;
    let seed = number(1, "seed", 1)?;
    Ok(Options { seconds, seed, calls, time_limit })
}

fn run_on_thread(options: &Options, tally: &mut Tally) -> Result<(), String> {
    thread::scope(|scope| {
        let thread = thread::Builder::new().stack_size(STACK);
        let run = thread.spawn_scoped(scope, || run(options, tally)).expect("a thread");
        run.join().expect("the run answers")
    })
}

fn run(options: &Options, tally: &mut Tally) -> Result<(), String> {
    let end = Instant::now() + Duration::from_secs(options.seconds);
    let mut random = Random::new(options.seed);
    let mut desk = desk::Subject::new();
    let mut catch_up = catch_up::Subject::new();
    let mut wall = wall::Subject::new();
    let mut test = test::Subject::new();
    let mut roots = roots::Subject::new();
    let mut magnitude = magnitude::Subject::new();
    let calls = &options.calls;
    while Instant::now() < end {
        if mulkefi::versions() != mulkefi::VERSIONS {
            return Err("mulkefi_versions: other versions".into());
        }
        if mulkefi::interface() != mulkefi::INTERFACE {
            return Err("mulkefi_interface: another interface".into());
        }
        for _ in 0..64 {
            watchdog::next_case();
            let (name, outcome) = match random.below(11) {
                0..=2 => ("desk_edit", desk.try_one(calls, &mut random)),
                3..=5 => ("wall_deliver", wall.try_one(calls, &mut random)),
                6 | 7 => ("catch_up", catch_up.try_one(calls, &mut random)),
                8 => ("test", test.try_one(calls, &mut random)),
                9 => ("roots", roots.try_one(calls, &mut random)),
                _ => ("largest_magnitude", magnitude.try_one(calls, &mut random)),
            };
            tally.add(name, outcome.map_err(|fault| format!("mulkefi_{name}: {fault}"))?);
        }
    }
    Ok(())
}
