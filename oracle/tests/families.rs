//! Families of curves over generated lists of edits: after every accepted edit lines and arcs have
//! their chains, and circles that are cut their rings.
#![cfg(upstream)]

use oracle::families::Families;
use oracle::family_counts::FamilyCounts;
use oracle::generate::{random::Random, rings};
use oracle::message::{self, Edit};
use oracle::replication::Desk;

const LISTS: usize = 100_000;

/// What came up in the lists.
#[derive(Debug, Default)]
struct ListCoverage {
    drawings_with_circles: usize,
    asked: usize,
    /// Edits asked of a member of a circle's family.
    asked_of_circles: usize,
    accepted: usize,
    /// All families in all checks.
    checked: FamilyCounts,
    /// The families at the lists' ends.
    last: FamilyCounts,
}

#[test]
fn families_stay_joined_over_generated_lists() {
    let mut random = Random::new(31);
    let mut seen = ListCoverage::default();
    for number in 0..LISTS {
        if let Err(fault) = follow_list(&mut random, &mut seen) {
            panic!("list {number}: {fault}");
        }
    }
    println!("{seen:#?}");
    assert!(seen.drawings_with_circles > LISTS * 9 / 10);
    assert!(seen.asked_of_circles > seen.asked / 2);
    assert!(seen.checked.rings > 900_000);
    assert!(seen.last.rings > 150_000 && seen.last.long_rings > 75_000);
    assert!(seen.last.largest_ring >= 15);
    assert!(seen.last.circles_removed_whole > 30_000 && seen.last.uncut_circles > 120_000);
    assert!(seen.last.long_chains > 60_000 && seen.last.longest_chain >= 10);
}

/// One list at the desk, refused edits too.
fn follow_list(random: &mut Random, seen: &mut ListCoverage) -> Result<(), String> {
    let start = rings::drawing(random);
    let mut families = Families::new(&start);
    let mut desk = Desk::new(start.clone(), 0);
    let (mut asked, mut out): (Vec<Edit>, _) = (Vec::new(), [0; message::SIZE]);
    let mut counts = families.check(&start)?;
    seen.drawings_with_circles += usize::from(counts.circles() > 0);
    for _ in 0..rings::length(random) {
        let edit = rings::edit(random, &desk.replica.drawing, &families);
        asked.push(edit);
        seen.asked_of_circles += usize::from(families.members_of_circles().contains(&edit.curve));
        let before = desk.replica.drawing.clone();
        let Ok(report) = desk.edit(&edit, &mut out) else { continue };
        seen.accepted += 1;
        let after = &desk.replica.drawing;
        families.follow(&before, after, edit.curve, &report);
        let checked = families.check(after);
        counts = checked.map_err(|fault| format!("{fault}\n  {start:?}\n  {asked:?}"))?;
        seen.checked.add(&counts);
    }
    seen.asked += asked.len();
    seen.last.add(&counts);
    Ok(())
}
