//! Numbers as names in tables of counts.

const NUMERALS: [&str; 41] = [
    "0", "1", "2", "3", "4", "5", "6", "7", "8", "9", "10", "11", "12", "13", "14", "15", "16",
    "17", "18", "19", "20", "21", "22", "23", "24", "25", "26", "27", "28", "29", "30", "31", "32",
    "33", "34", "35", "36", "37", "38", "39", "40",
];

/// The name of a number up to 40, as those of outcomes are: a refusal's, or 0 for acceptance.
pub fn numeral(number: impl Into<usize>) -> &'static str {
    NUMERALS[number.into()]
}
