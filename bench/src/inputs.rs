//! Drawings of a size, several of them, so that no figure rests on one alone.

use oracle::drawing::Drawing;
use oracle::generate::bridges::{self, Size};
use oracle::generate::random::Random;
use oracle::image;

const SAMPLES: usize = 8;

pub struct Sample {
    pub drawing: Drawing,
    pub image: Vec<u8>,
}

pub struct Inputs {
    samples: Vec<Sample>,
    at: usize,
}

impl Inputs {
    pub fn new(size: Size) -> Inputs {
        let mut random = Random::new(1);
        let sample = |_| {
            let drawing = bridges::drawing(&mut random, size);
            let image = image::to_bytes(&drawing);
            Sample { drawing, image }
        };
        Inputs { samples: (0..SAMPLES).map(sample).collect(), at: 0 }
    }

    /// The next sample, round and round.
    pub fn next(&mut self) -> &Sample {
        self.at = (self.at + 1) % SAMPLES;
        &self.samples[self.at]
    }

    pub fn mean_bytes(&self) -> usize {
        self.samples.iter().map(|sample| sample.image.len()).sum::<usize>() / SAMPLES
    }
}
