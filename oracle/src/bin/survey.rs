//! Runs generated edits and root searches through the oracle alone and prints what they meet.
//! Every drawing that an edit leaves must pass the tests that images pass.
//!
//! `survey [drawings] [seed]`

use oracle::arguments;
use oracle::edit;
use oracle::generate::coverage::Coverage;
use oracle::generate::{bridges, edits, marks, polynomials, random::Random};
use oracle::message;
use oracle::refusal::number_of;
use oracle::replication::{Delivery, Desk};
use oracle::roots::{roots, BUFFER};
use oracle::{image, upstream, validity};
use std::time::Instant;

const EDITS: usize = 6;

fn main() {
    upstream::present_or_skip("survey");
    let (drawings, seed) = (arguments::number(1, 50_000), arguments::number(2, 1));
    report("edits", drawings, survey_edits, seed);
    report("roots", drawings, survey_roots, seed);
}

fn report(name: &str, rounds: u64, round: fn(&mut Random, &mut Coverage), seed: u64) {
    let start = Instant::now();
    let (mut random, mut coverage) = (Random::new(seed), Coverage::default());
    for _ in 0..rounds {
        round(&mut random, &mut coverage);
    }
    println!("{name}: {rounds} rounds in {:.1} s", start.elapsed().as_secs_f64());
    print!("{coverage}");
}

/// A desk makes some edits; a wall gets each message twice and must end with the same image.
fn survey_edits(random: &mut Random, coverage: &mut Coverage) {
    let (drawing, mark) = (bridges::any_drawing(random), marks::mark(random));
    let mut desk = Desk::new(drawing, mark);
    let mut wall = desk.replica.clone();
    let mut out = [0; message::SIZE];
    for _ in 0..EDITS {
        let edit = edits::edit(random, &desk.replica.drawing);
        coverage.drawing(&desk.replica.drawing);
        match desk.edit(&edit, &mut out) {
            Ok(report) => {
                coverage.edit_outcome(edit.operation, 0);
                assert_eq!(validity::check(&desk.replica.drawing), Ok(()));
                assert_eq!(wall.deliver(&out), Ok(Delivery::Applied(report)));
                assert_eq!(wall.deliver(&out), Ok(Delivery::Old));
            }
            Err(refused) => {
                coverage.edit_outcome(edit.operation, refused.refusal.number());
                assert_eq!(edit::apply(&wall.drawing, &edit), Err(refused));
            }
        }
    }
    assert_eq!(image::to_bytes(&wall.drawing), image::to_bytes(&desk.replica.drawing));
}

fn survey_roots(random: &mut Random, coverage: &mut Coverage) {
    let case = polynomials::polynomial(random);
    let mut out = [0.0; BUFFER];
    let search = roots(&case.coefficients, case.budget, &mut out);
    coverage.outcome(number_of(&search.found));
}
