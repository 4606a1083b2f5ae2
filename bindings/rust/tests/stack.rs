//! A thread with the stack that the crate asks for has enough of it for every call. Where it had not, this
//! test would end by a signal.

use mulkefi::{roots, Desk, Edit, Mark, Operation, Wall, STACK_SIZE};
use oracle::call::Call;
use oracle::generate::{bridges, calls, edits, random::Random};
use std::collections::BTreeMap;
use std::thread::Builder;

/// How often each outcome came up, 0 where a call was accepted.
type Outcomes = BTreeMap<u16, usize>;

/// A desk and a wall from their start to a catch-up.
fn run(call: &Call, outcomes: &mut Outcomes) {
    let mark = Mark::from(7);
    let Ok(mut desk) = Desk::start(&call.image, mark) else { return };
    let mut wall = Wall::start(&call.image, mark).expect("the desk takes the image");
    let operation = Operation::ALL.into_iter().find(|one| u32::from(one.code()) == call.operation);
    let Some(operation) = operation else { return };
    let edit = Edit { operation, curve: call.curve, x: call.x, y: call.y };
    let outcome = desk.edit(&edit);
    *outcomes.entry(outcome.err().map_or(0, |refusal| refusal.number())).or_default() += 1;
    for message in desk.catch_up(wall.count()).expect("one message at most is due") {
        wall.deliver(&message).expect("the wall takes what its desk wrote");
    }
    assert_eq!((desk.image(), desk.count()), (wall.image(), wall.count()));
}

#[test]
fn every_call_fits() {
    let mut random = Random::new(12);
    let small = (0..3_000).map(|case| match case % 2 {
        0 => calls::cut(&mut random),
        _ => calls::extension(&mut random),
    });
    let mut cases: Vec<Call> = small.collect();
    for _ in 0..300 {
        let drawing = bridges::with_all_met(&mut random, 120, 240, true);
        cases.push(Call::new(&drawing, &edits::edit(&mut random, &drawing)));
    }
    let thread = Builder::new().stack_size(STACK_SIZE).spawn(move || {
        let mut outcomes = Outcomes::new();
        cases.iter().for_each(|call| run(call, &mut outcomes));
        let most = [1.0, -1.0].into_iter().cycle().take(15).collect::<Vec<f64>>();
        roots(&most, 100_000).expect("the budget suffices");
        outcomes
    });
    let outcomes = thread.expect("a thread").join().expect("the thread does not panic");
    println!("{outcomes:?}");
    let expected = [0, 8, 9, 10, 11, 12, 13, 14, 15, 16, 17, 18, 19, 22, 23, 24];
    assert!(expected.iter().all(|number| outcomes.contains_key(number)), "{outcomes:?}");
}
