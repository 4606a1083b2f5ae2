//! The recorded list of runs: the same each time, every outcome of images and of deliveries, and
//! what the program writes.
#![cfg(upstream)]

use oracle::bytes::u32_at;
use oracle::examples::l;
use oracle::image;
use oracle::message::{MARK_SIZE, SIZE};
use oracle::program::{self, Parts, MAX_INPUT};
use oracle::recording::{self, List, OLD, SEED};
use std::collections::BTreeSet;

#[test]
fn the_recorded_runs_are_the_same_each_time_and_hold_every_outcome() {
    let runs = recording::runs(SEED);
    assert_eq!(runs.bytes(), recording::runs(SEED).bytes());
    assert!(runs.bytes().len() < 600 << 10);
    for outcome in 0..=5 {
        assert!(runs.outcomes().contains(&outcome), "no image with outcome {outcome}");
    }
    // A delivery brings no image (3 to 5), no search of its own (20, 21) and no buffer (25).
    let coverage = recording::run_coverage(&runs);
    for outcome in (0..=2).chain(6..=19).chain(22..=24).chain([28, OLD]) {
        assert!(coverage.contains_key(&outcome), "no delivery with outcome {outcome}");
    }
}

#[test]
fn an_entry_holds_a_run_and_what_it_writes() {
    let runs = recording::runs(SEED);
    let mut longest = 0;
    for (outcome, entry) in runs.entries() {
        let (input, written) = entry[4..].split_at(u32_at(entry, 0) as usize);
        assert_eq!(written, program::run(input));
        assert_eq!(outcome != 0, written == [0, 0, 0, 2, 1, outcome]);
        longest = longest.max(input.len());
    }
    assert!(longest > MAX_INPUT);
}

/// What the program reads in each run.
fn inputs(runs: &List<()>) -> impl Iterator<Item = &[u8]> {
    runs.entries().map(|(_, entry)| &entry[4..][..u32_at(entry, 0) as usize])
}

#[test]
fn runs_end_at_every_place_about_the_mark() {
    let (runs, image) = (recording::runs(SEED), image::to_bytes(&l()));
    let last = image.len() - 1;
    let of_l = inputs(&runs).filter(|input| input.starts_with(&image[..last]));
    let ends: BTreeSet<usize> = of_l.map(<[u8]>::len).collect();
    assert!((last..=image.len() + MARK_SIZE + SIZE).all(|end| ends.contains(&end)), "{ends:?}");
}

/// A message more is read than fits, or one fewer: either would show.
#[test]
fn the_runs_about_the_limit_depend_on_it() {
    let runs = recording::runs(SEED);
    let mut rests = Vec::new();
    for input in inputs(&runs).filter(|input| input.len() > MAX_INPUT) {
        let shorter = &input[..MAX_INPUT - SIZE];
        assert_ne!(program::run(input), program::run(shorter));
        // The first message and the last two, all of which are then read.
        let Parts { image, mark, messages, .. } = Parts::of(input);
        let last_two = &input[input.len() - 2 * SIZE..];
        let whole = [image, mark, &messages[..SIZE], last_two].concat();
        assert_ne!(program::run(input), program::run(&whole));
        rests.push(messages.len() % SIZE);
    }
    assert!(rests.len() == 2 && rests[0] == 0 && rests[1] > 0, "{rests:?}");
}
