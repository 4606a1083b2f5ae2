//! An order of refusals: of each two rules that are both broken, the earlier one's number is given.

use crate::document::{range, table};

/// What a call gives.
#[derive(Clone, Copy, Debug, PartialEq)]
pub enum Given {
    Accepted,
    Old,
    Number(u16),
}

impl Given {
    pub fn of(answer: u32) -> Given {
        match (answer & 0xffff) as u16 {
            0 => Given::Accepted,
            number => Given::Number(number),
        }
    }

    /// Whether it is what a cell of a table says.
    fn is(self, cell: &str) -> bool {
        match self {
            Given::Accepted => false,
            Given::Old => cell == "none",
            Given::Number(number) => {
                range(cell).is_some_and(|(from, to)| (from..=to).contains(&usize::from(number)))
            }
        }
    }
}

/// A rule by its name in the table, and what breaks it in a call.
pub type Rule<T> = (&'static str, fn(&mut T));

/// Holds a table to a call. Pairs of rules that no call can break both are named as `apart`.
///
/// Of two rules the later one is broken first, so that what breaks the earlier may undo it.
pub fn check<T: Clone>(
    heading: &str,
    good: &T,
    rules: &[Rule<T>],
    apart: &[(&str, &str)],
    call: impl Fn(&T) -> Given,
) {
    let rows = table(heading);
    let names: Vec<&str> = rows.iter().map(|row| row.cell("rule")).collect();
    let expected: Vec<&str> = rules.iter().map(|(name, _)| *name).collect();
    assert_eq!(names, expected, "{heading}");
    assert_eq!(call(good), Given::Accepted, "{heading}");
    for (place, (row, (name, break_rule))) in rows.iter().zip(rules).enumerate() {
        let cell = row.cell("number");
        let mut broken = good.clone();
        break_rule(&mut broken);
        let given = call(&broken);
        assert!(given.is(cell), "{heading}: {name} gives {given:?}, not {cell}");
        for (later, break_later) in &rules[place + 1..] {
            if apart.contains(&(name, later)) {
                continue;
            }
            let mut broken = good.clone();
            break_later(&mut broken);
            break_rule(&mut broken);
            let given = call(&broken);
            assert!(given.is(cell), "{heading}: {name} and {later} give {given:?}, not {cell}");
        }
    }
}
