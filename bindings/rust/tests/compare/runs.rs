//! Whole runs on one desk and one wall, whose buffers keep what earlier and longer images left.

use super::coverage::Coverage;
use super::deliveries;
use super::implementations::{Engine, Implementation, Oracle, Outcome};
use mulkefi::{Desk, Wall};
use oracle::generate::{random::Random, runs::Run};
use oracle::image;
use oracle::steps::State;
use window_cases::plain;

pub fn compare(random: &mut Random, count: usize, seen: &mut Coverage) -> Result<(), String> {
    (0..count).try_for_each(|_| compare_run(&Run::any(random), seen))
}

fn compare_run(run: &Run, seen: &mut Coverage) -> Result<(), String> {
    let start = State { image: image::to_bytes(&run.start), mark: run.mark, count: 0 };
    let mut desk = begin(Desk::start(&start.image, run.mark.into()))?;
    let mut wall = begin(Wall::start(&start.image, run.mark.into()))?;
    let (mut state, mut window) = (start.clone(), Box::new([0; plain::SIZE]));
    for (edit, _) in &run.calls {
        let expected = Oracle::edit(&state, &window, edit);
        same(&expected, &Engine::edit_at(&mut desk, edit))?;
        seen.add("desk", expected.number());
        (state, window) = (expected.state, expected.window.expect("a desk has a window"));
    }
    state = start;
    for message in &run.deliveries {
        let expected = Oracle::deliver(&state, message);
        same(&expected, &Engine::deliver_to(&mut wall, message))?;
        seen.add("wall", expected.number());
        deliveries::add(message, &state, seen)?;
        state = expected.state;
    }
    Ok(())
}

fn begin<T>(started: Result<T, mulkefi::Refusal>) -> Result<T, String> {
    started.map_err(|refusal| format!("a good image is refused: {refusal}"))
}

fn same(expected: &Outcome, found: &Outcome) -> Result<(), String> {
    match expected == found {
        true => Ok(()),
        false => Err(format!("\n  oracle {expected:?}\n  engine {found:?}")),
    }
}
