//! Counts of what a comparison of numbers or figures exercised.

use std::fmt;

/// How often each thing came up, by row and name, in the order in which they first did.
#[derive(Default)]
pub struct Counts {
    counts: Vec<(&'static str, &'static str, u64)>,
}

impl Counts {
    pub fn add(&mut self, row: &'static str, name: &'static str) {
        match self.counts.iter_mut().find(|count| (count.0, count.1) == (row, name)) {
            Some(count) => count.2 += 1,
            None => self.counts.push((row, name, 1)),
        }
    }

    pub fn add_if(&mut self, came_up: bool, row: &'static str, name: &'static str) {
        if came_up {
            self.add(row, name);
        }
    }
}

impl fmt::Display for Counts {
    fn fmt(&self, f: &mut fmt::Formatter<'_>) -> fmt::Result {
        let mut rows: Vec<&str> = self.counts.iter().map(|count| count.0).collect();
        rows.sort();
        rows.dedup();
        for row in rows {
            write!(f, "  {row:<15}")?;
            let mut counts: Vec<_> = self.counts.iter().filter(|count| count.0 == row).collect();
            // Names that are numbers stand in their order.
            counts.sort_by_key(|(_, name, _)| name.parse().unwrap_or(u32::MAX));
            for (_, name, count) in counts {
                write!(f, " {name}:{count}")?;
            }
            writeln!(f)?;
        }
        Ok(())
    }
}
