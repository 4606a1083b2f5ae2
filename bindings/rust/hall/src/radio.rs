//! The one radio of the hall: of the messages handed to it some are lost, some come twice, and some are
//! overtaken, by those of other desks too.

use crate::random::Random;
use mulkefi::MESSAGE_SIZE;
use std::collections::BTreeMap;

pub type Message = [u8; MESSAGE_SIZE];

/// A message on the air, with the place of the desk that sent it and the number of the desk's start, by which
/// walls are judged and of which they know nothing.
#[derive(Clone, Copy)]
pub struct Sent {
    pub desk: usize,
    pub start: usize,
    pub message: Message,
}

pub struct Radio {
    random: Random,
    waiting: Vec<Sent>,
    traffic: BTreeMap<usize, Traffic>,
}

/// What became of a desk's messages.
#[derive(Clone, Copy, Default)]
pub struct Traffic {
    pub sent: usize,
    pub lost: usize,
    pub repeated: usize,
    pub overtaken: usize,
}

impl Radio {
    pub fn new(seed: u64) -> Radio {
        Radio { random: Random::new(seed), waiting: Vec::new(), traffic: BTreeMap::new() }
    }

    /// Takes a message, and gives those that arrive now.
    pub fn transmit(&mut self, sent: Sent) -> Vec<Sent> {
        self.traffic_of(sent).sent += 1;
        match self.random.below(10) {
            0 | 1 => self.traffic_of(sent).lost += 1,
            2 | 3 => {
                self.traffic_of(sent).repeated += 1;
                self.waiting.extend([sent, sent]);
            }
            _ => self.waiting.push(sent),
        }
        if !self.random.one_in(3) {
            // Held back, so that what comes next may overtake it.
            return Vec::new();
        }
        let mut arrived = self.rest();
        if self.random.one_in(2) {
            arrived.reverse();
            arrived.iter().skip(1).for_each(|sent| self.traffic_of(*sent).overtaken += 1);
        }
        arrived
    }

    /// What was still held back.
    pub fn rest(&mut self) -> Vec<Sent> {
        std::mem::take(&mut self.waiting)
    }

    /// What became of a desk's messages.
    pub fn traffic(&self, desk: usize) -> Traffic {
        self.traffic.get(&desk).copied().unwrap_or_default()
    }

    fn traffic_of(&mut self, sent: Sent) -> &mut Traffic {
        self.traffic.entry(sent.desk).or_default()
    }
}
