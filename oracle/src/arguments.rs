//! Numbers on the command line.

/// The argument at `place`, the program's name being at 0, or the default where it is missing. One that is no
/// number ends the program with a sentence.
pub fn number(place: usize, default: u64) -> u64 {
    let Some(text) = std::env::args().nth(place) else {
        return default;
    };
    text.parse().unwrap_or_else(|_| {
        eprintln!("argument {place} is {text:?}, and a whole number from 0 is expected");
        std::process::exit(2)
    })
}
