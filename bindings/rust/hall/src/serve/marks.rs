//! Marks that no start of a desk had before.

use mulkefi::Mark;
use std::hash::{BuildHasher, Hasher, RandomState};

/// Random bits of the server in the upper half of a mark, and a counter of its starts in the lower.
#[derive(Clone)]
pub struct Marks {
    server: u32,
    starts: u32,
}

impl Marks {
    pub fn new(server: u32) -> Marks {
        Marks { server, starts: 0 }
    }

    /// The mark of the next start.
    pub fn next(&mut self) -> Mark {
        // Past the last number other bits of the server take their turn.
        self.starts = self.starts.checked_add(1).unwrap_or_else(|| {
            self.server = self.server.wrapping_add(1);
            1
        });
        Mark::from(u64::from(self.server) << 32 | u64::from(self.starts))
    }

    pub fn of_server(&self) -> u32 {
        self.server
    }
}

/// Bits from the system's source of random bytes, by which the standard library seeds its tables.
pub fn random_bits() -> u64 {
    RandomState::new().build_hasher().finish()
}

#[cfg(test)]
mod tests {
    use super::*;

    #[test]
    fn no_two_starts_have_one_mark() {
        let mut marks = Marks::new(0x0a0b_0c0d);
        assert_eq!(marks.next().to_string(), "0a0b0c0d00000001");
        assert_eq!(marks.next().to_string(), "0a0b0c0d00000002");
        marks.starts = u32::MAX;
        assert_eq!(marks.next().to_string(), "0a0b0c0e00000001");
        assert_ne!(random_bits(), random_bits());
    }
}
