//! Desk, wall, the C interface, the search for roots and the largest magnitude against the oracle, on
//! generated input; catch-ups against a plain reading of the window; the families of curves at desk and
//! wall; and whole halls with walls that catch up and are started again.
//!
//! `cargo test --release --test compare -- CASES SEED`; the cases are also taken from MULKEFI_CASES.
//! Of so many cases a quarter each are desk calls, deliveries, calls with rooms of every size and
//! searches; as many again are lists of numbers, and a further one in forty is a whole run. For each case
//! there are ten catch-ups, five lists of edits are followed, and for each five one hall; these need no
//! upstream source. What came up is printed by outcome; where messages are many, every kind of foreign one
//! must be among them, and where catch-ups or halls are many, every kind of these.

mod boundary;
mod cases;
mod catch_up_coverage;
mod catch_ups;
mod coverage;
mod deliveries;
mod families;
mod faulty_hosts;
mod hall_counts;
mod hall_edits;
mod halls;
mod hosts;
mod implementations;
mod magnitudes;
mod runs;
mod searches;

use catch_up_coverage::CatchUpCoverage;
use coverage::Coverage;
use hall_counts::HallCounts;
use implementations::{
    Engine, Implementation, LowHalfOfMark, Oracle, Planted, SlidesRefused, SlotBehind, SwappedEnds,
    WithoutPlace,
};
use oracle::generate::random::Random;
use oracle::upstream;
use std::process::ExitCode;

const CASES: usize = 20_000;
/// Catch-ups for so many cases.
const CATCH_UPS: usize = 200_000;
/// Lists of edits whose families are followed, for so many cases.
const LISTS: usize = 100_000;
/// Whole halls for so many cases.
const HALLS: usize = 4_000;

fn main() -> ExitCode {
    // Other arguments are the test harness's.
    let mut numbers = std::env::args().skip(1).filter_map(|text| text.parse::<usize>().ok());
    let asked = match std::env::var("MULKEFI_CASES").map(|text| text.parse().map_err(|_| text)) {
        Ok(Ok(cases)) => Some(cases),
        Ok(Err(text)) => {
            eprintln!("MULKEFI_CASES is {text:?}, and a number of cases is expected");
            return ExitCode::from(2);
        }
        Err(_) => None,
    };
    let cases = numbers.next().or(asked).unwrap_or(CASES);
    let seed = numbers.next().unwrap_or(1) as u64;
    match run(cases, seed) {
        Ok(()) => ExitCode::SUCCESS,
        Err(difference) => {
            println!("{difference}");
            ExitCode::FAILURE
        }
    }
}

fn run(cases: usize, seed: u64) -> Result<(), String> {
    if upstream::PRESENT {
        compare(cases, seed)?;
        planted_faults_are_seen()?;
    } else {
        println!("no upstream source: the comparison of desk and wall is skipped");
    }
    compare_catch_ups(cases * CATCH_UPS / CASES, seed)?;
    catch_ups::planted_faults_are_seen()?;
    check_families(cases * LISTS / CASES, seed)?;
    families::planted_faults_are_seen()?;
    check_halls(cases * HALLS / CASES, seed)?;
    halls::planted_faults_are_seen()
}

fn compare_catch_ups(count: usize, seed: u64) -> Result<(), String> {
    let mut seen = CatchUpCoverage::default();
    catch_ups::compare(&mut Random::new(seed), count, &mut seen)
        .map_err(|difference| format!("catch-ups: {difference}"))?;
    print!("catch-ups: {} compared, no difference\n{seen}", seen.cases);
    Ok(())
}

fn check_halls(halls: usize, seed: u64) -> Result<(), String> {
    let mut seen = HallCounts::default();
    halls::check(&mut Random::new(seed), halls, &mut seen)
        .map_err(|fault| format!("halls: {fault}"))?;
    print!("halls: {halls} followed, walls alike after every delivery and start\n{seen}");
    Ok(())
}

fn check_families(lists: usize, seed: u64) -> Result<(), String> {
    let mut seen = families::FamilyCoverage::default();
    families::check(&mut Random::new(seed), lists, &mut seen)
        .map_err(|fault| format!("families: {fault}"))?;
    print!("families: {lists} lists followed, every chain and ring joined\n{seen}");
    Ok(())
}

fn compare(cases: usize, seed: u64) -> Result<(), String> {
    let random = &mut Random::new(seed);
    let share = cases / 4;
    report("desk calls", share, |seen| steps::<Engine>(random, share, cases::desk, seen))?;
    report("deliveries", share, |seen| steps::<Engine>(random, share, cases::wall, seen))?;
    report("rooms", share, |seen| boundary::compare(random, share, seen))?;
    report("searches", share, |seen| searches::compare(random, share, seen))?;
    report("magnitudes", share, |seen| magnitudes::compare(random, share, seen))?;
    report("runs", cases / 40, |seen| runs::compare(random, cases / 40, seen))
}

fn report(
    name: &str,
    count: usize,
    compared: impl FnOnce(&mut Coverage) -> Result<(), String>,
) -> Result<(), String> {
    let mut seen = Coverage::default();
    let compared = compared(&mut seen).and_then(|()| seen.check_deliveries());
    compared.map_err(|difference| format!("{name}: {difference}"))?;
    print!("{name}: {count} compared, no difference\n{seen}");
    Ok(())
}

/// Single calls, each from a state of its own.
fn steps<I: Implementation>(
    random: &mut Random,
    count: usize,
    case: fn(&mut Random) -> cases::Case,
    seen: &mut Coverage,
) -> Result<(), String> {
    for _ in 0..count {
        let case = case(random);
        let (expected, found) = (case.outcome_of::<Oracle>(), case.outcome_of::<I>());
        if expected != found {
            return Err(format!("{case:?}\n  oracle {expected:?}\n  engine {found:?}"));
        }
        case.add(&expected, seen)?;
    }
    Ok(())
}

/// The comparison must be able to fail.
fn planted_faults_are_seen() -> Result<(), String> {
    for case in [cases::desk, cases::wall] {
        planted_fault_is_seen::<Planted<SwappedEnds>>("ends swapped", case)?;
        planted_fault_is_seen::<Planted<WithoutPlace>>("no place", case)?;
    }
    planted_fault_is_seen::<LowHalfOfMark>("low half of the mark", cases::wall)?;
    planted_fault_is_seen::<Planted<SlotBehind>>("the slot behind", cases::desk)?;
    planted_fault_is_seen::<Planted<SlidesRefused>>("slid by a refused edit", cases::desk)?;
    println!("planted faults: seen at desk and wall");
    Ok(())
}

fn planted_fault_is_seen<I: Implementation>(
    name: &str,
    case: fn(&mut Random) -> cases::Case,
) -> Result<(), String> {
    let seen = &mut Coverage::default();
    match steps::<I>(&mut Random::new(3), 4_000, case, seen) {
        Ok(()) => Err(format!("a planted fault was not seen: {name}")),
        Err(_) => Ok(()),
    }
}
