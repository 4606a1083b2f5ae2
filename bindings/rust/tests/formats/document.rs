//! The tables of `docs/FORMATS.md`.

use std::collections::HashMap;

pub const TEXT: &str = include_str!("../../../../docs/FORMATS.md");

/// All that is no table, its words with one blank between them.
pub fn prose() -> String {
    let lines = TEXT.lines().filter(|line| !line.starts_with('|'));
    lines.flat_map(str::split_whitespace).collect::<Vec<_>>().join(" ")
}

/// A row of a table, by the names of its columns.
pub struct Row(HashMap<String, String>);

impl Row {
    pub fn cell(&self, column: &str) -> &str {
        self.0.get(column).unwrap_or_else(|| panic!("a table has no column {column}"))
    }

    pub fn number(&self, column: &str) -> usize {
        let cell = self.cell(column);
        number(cell).unwrap_or_else(|| panic!("{cell} is no number"))
    }
}

/// The rows of the first table under the heading of this text.
pub fn table(heading: &str) -> Vec<Row> {
    let title =
        |line: &str| line.starts_with('#') && line.trim_start_matches('#').trim() == heading;
    let mut lines = TEXT.lines().skip_while(|line| !title(line)).skip(1);
    let names = cells(lines.find(|line| line.starts_with('|')).unwrap_or_else(|| {
        panic!("docs/FORMATS.md has no table under {heading}");
    }));
    let rows = lines.skip(1).take_while(|line| line.starts_with('|')).map(|line| {
        let cells = cells(line);
        assert_eq!(cells.len(), names.len(), "{line}");
        Row(names.iter().cloned().zip(cells).collect())
    });
    let rows: Vec<Row> = rows.collect();
    assert!(!rows.is_empty(), "the table under {heading} is empty");
    rows
}

fn cells(line: &str) -> Vec<String> {
    let inner = line.trim().trim_start_matches('|').trim_end_matches('|');
    inner.split('|').map(|cell| cell.trim().to_string()).collect()
}

/// A number as the document writes it, 21,135 for one.
pub fn number(text: &str) -> Option<usize> {
    text.replace(',', "").parse().ok()
}

pub fn float(text: &str) -> Option<f64> {
    text.replace(',', "").replace('−', "-").parse().ok()
}

/// The two numbers of a range, as "1 to 5", or one number twice.
pub fn range(text: &str) -> Option<(usize, usize)> {
    match text.split_once(" to ") {
        Some((from, to)) => Some((number(from)?, number(to)?)),
        None => number(text).map(|one| (one, one)),
    }
}
