//! The wall's program over the oracle: standard input to standard output.

use oracle::{program, upstream};
use std::io::{Read, Write};

fn main() -> std::io::Result<()> {
    upstream::present_or_skip("wall");
    let mut input = Vec::new();
    std::io::stdin().take(program::MAX_INPUT as u64).read_to_end(&mut input)?;
    std::io::stdout().write_all(&program::run(&input))
}
