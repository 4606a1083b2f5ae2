//! Catch-ups through the C interface and through the crate, against the plain reading of a window.

use super::catch_up_coverage::CatchUpCoverage;
use mulkefi::{raw, Desk, MESSAGE_SIZE};
use oracle::generate::random::Random;
use window_cases::{plain, Case};

/// Bytes about the buffer that is lent, which no call may touch.
const AROUND: usize = 64;
const FILL: u8 = 0xa5;
/// An empty drawing; a catch-up does not ask for it.
const IMAGE: [u8; 15] = [0, 0, 0, 11, 1, 0, 0, 0, 1, 0, 0, 0, 0, 0, 0];

/// Answers a case, and writes to the buffer that is lent.
type CatchUp = fn(&Case, &mut [u8]) -> u32;

/// Every window with the counts and rooms next to each limit, and so many cases more.
pub fn compare(
    random: &mut Random,
    count: usize,
    seen: &mut CatchUpCoverage,
) -> Result<(), String> {
    compare_calls(Case::about_each_limit(random), by_engine, seen)?;
    compare_calls((0..count).map(|_| Case::any(random)), by_engine, seen)?;
    seen.check()
}

fn compare_calls(
    mut cases: impl Iterator<Item = Case>,
    catch_up: CatchUp,
    seen: &mut CatchUpCoverage,
) -> Result<(), String> {
    cases.try_for_each(|case| {
        let outcome = compare_call(&case, catch_up)?;
        compare_crate(&case)?;
        seen.add(&case, outcome);
        Ok(())
    })
}

/// The call with the room of the case: its answer and every byte about and in the buffer.
fn compare_call(case: &Case, catch_up: CatchUp) -> Result<u32, String> {
    let lent = AROUND..AROUND + case.room;
    let mut memory: Vec<u8> = (0..case.room + 2 * AROUND).map(|at| FILL ^ at as u8).collect();
    let mut expected = memory.clone();
    let (outcome, written) = case.expected(&memory[lent.clone()]);
    expected[lent.clone()].copy_from_slice(&written);
    let found = catch_up(case, &mut memory[lent]);
    match (outcome, &expected) == (found, &memory) {
        true => Ok(outcome),
        false => Err(format!(
            "{case:?}\n  expected {outcome}, {expected:02x?}\n  engine {found}, {memory:02x?}"
        )),
    }
}

fn by_engine(case: &Case, messages: &mut [u8]) -> u32 {
    let Case { window, count, mark, wall_count, .. } = case;
    let (messages, room) = (messages.as_mut_ptr(), messages.len());
    // SAFETY: the two are apart and have their own lengths; the window has the bytes of one.
    unsafe { raw::mulkefi_catch_up(window.as_ptr(), *count, *mark, *wall_count, messages, room) }
}

/// The crate's call, which always lends enough.
fn compare_crate(case: &Case) -> Result<(), String> {
    let Case { window, count, mark, wall_count, .. } = case;
    let desk = Desk::resume(&IMAGE, (*mark).into(), *count, window);
    let desk = desk.map_err(|refusal| format!("a good image is refused: {refusal}"))?;
    let found = match desk.catch_up(*wall_count) {
        Ok(messages) => (0, messages.into_flattened()),
        Err(refusal) => (refusal.number().into(), Vec::new()),
    };
    let (outcome, mut written) = case.expected(&[0; plain::SIZE]);
    let due = if outcome == 0 { (count - wall_count) as usize } else { 0 };
    written.truncate(MESSAGE_SIZE * due);
    match found == (outcome, written) && desk.window()[..] == window[..] {
        true => Ok(()),
        false => Err(format!("{case:?}\n  expected {outcome}\n  crate {found:02x?}")),
    }
}

/// The comparison must be able to fail.
pub fn planted_faults_are_seen() -> Result<(), String> {
    let faults: [(&str, CatchUp); 5] = [
        ("one message left out", |case, messages| {
            let wall_count = case.wall_count.saturating_add(1);
            by_engine(&Case { wall_count, window: case.window.clone(), ..*case }, messages)
        }),
        ("falling order", |case, messages| {
            let outcome = by_engine(case, messages);
            if outcome == 0 {
                let due = (case.count - case.wall_count) as usize;
                messages[..MESSAGE_SIZE * due].as_chunks_mut::<MESSAGE_SIZE>().0.reverse();
            }
            outcome
        }),
        ("the byte beyond written", |case, messages| {
            let outcome = by_engine(case, messages);
            let due = case.count.wrapping_sub(case.wall_count) as usize;
            if let (0, Some(beyond)) = (outcome, messages.get_mut(MESSAGE_SIZE * due)) {
                *beyond = !*beyond;
            }
            outcome
        }),
        ("25 before 26", |case, messages| {
            let due = case.count.saturating_sub(case.wall_count) as usize;
            let is_short = messages.len() < MESSAGE_SIZE * due;
            if is_short {
                plain::SHORT_BUFFER
            } else {
                by_engine(case, messages)
            }
        }),
        ("27 answered 0", |case, messages| match by_engine(case, messages) {
            plain::COUNT_ABOVE => 0,
            outcome => outcome,
        }),
    ];
    for (name, fault) in faults {
        let (random, seen) = (&mut Random::new(3), &mut CatchUpCoverage::default());
        if compare_calls((0..2_000).map(|_| Case::any(random)), fault, seen).is_ok() {
            return Err(format!("a planted fault was not seen: {name}"));
        }
    }
    println!("planted faults of catch-ups: seen");
    Ok(())
}
