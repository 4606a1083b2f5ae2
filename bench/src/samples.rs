//! Small inputs in a ring, so many that no figure rests on one alone.

use oracle::generate::random::Random;

const SAMPLES: usize = 1024;

pub struct Samples<T> {
    samples: Vec<T>,
    at: usize,
}

impl<T> Samples<T> {
    pub fn new(sample: impl Fn(&mut Random) -> T) -> Samples<T> {
        let mut random = Random::new(1);
        Samples { samples: (0..SAMPLES).map(|_| sample(&mut random)).collect(), at: 0 }
    }

    /// The next sample, round and round.
    pub fn next(&mut self) -> &T {
        self.at = (self.at + 1) % SAMPLES;
        &self.samples[self.at]
    }
}
