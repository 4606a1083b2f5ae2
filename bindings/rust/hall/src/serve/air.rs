//! The radio between the desk and the wall, over time. It loses, repeats and holds back as a person sets it.

use crate::radio::Message;
use crate::random::Random;
use std::time::Duration;

/// How long a message is on the air that nothing holds back.
const FLIGHT: Duration = Duration::from_millis(250);
/// How much longer one is that later ones are to overtake, and after how long a second copy comes, in
/// milliseconds.
const HELD_BACK: (u64, u64) = (600, 1600);
const REPEATED_AFTER: (u64, u64) = (300, 900);
/// How many messages the air carries at once; what is sent beyond is lost.
const MOST: usize = 4096;

/// Chances in percent.
#[derive(Clone, Copy, Debug, PartialEq, Eq)]
pub struct Settings {
    pub loss: u8,
    pub repeats: u8,
    pub reordering: u8,
}

/// What became of the messages that were sent.
#[derive(Clone, Copy, Debug, Default, PartialEq, Eq)]
pub struct Counts {
    pub sent: usize,
    pub lost: usize,
    pub repeated: usize,
    /// Those that arrived after one that was sent later.
    pub overtaken: usize,
}

#[derive(Clone)]
pub struct Air {
    pub settings: Settings,
    pub counts: Counts,
    random: Random,
    flying: Vec<Flying>,
    /// The place in the order of sending of the latest message that has arrived.
    latest: usize,
}

#[derive(Clone)]
struct Flying {
    arrives: Duration,
    place: usize,
    is_copy: bool,
    message: Message,
}

impl Air {
    pub fn new(settings: Settings, seed: u64) -> Air {
        let random = Random::new(seed);
        Air { settings, counts: Counts::default(), random, flying: Vec::new(), latest: 0 }
    }

    pub fn send(&mut self, message: &Message, now: Duration) {
        let Settings { loss, repeats, reordering } = self.settings;
        self.counts.sent += 1;
        if self.chance(loss) || self.flying.len() >= MOST {
            self.counts.lost += 1;
            return;
        }
        let place = self.counts.sent;
        let mut arrives = now + FLIGHT;
        if self.chance(reordering) {
            arrives += self.between(HELD_BACK);
        }
        self.flying.push(Flying { arrives, place, is_copy: false, message: *message });
        if self.chance(repeats) {
            self.counts.repeated += 1;
            let arrives = arrives + self.between(REPEATED_AFTER);
            self.flying.push(Flying { arrives, place, is_copy: true, message: *message });
        }
    }

    /// What has arrived by now, in the order of arrival.
    pub fn arrived(&mut self, now: Duration) -> Vec<Message> {
        let flying = std::mem::take(&mut self.flying);
        let (mut arrived, flying): (Vec<Flying>, _) =
            flying.into_iter().partition(|one| one.arrives <= now);
        self.flying = flying;
        arrived.sort_by_key(|one| (one.arrives, one.place));
        for one in &arrived {
            self.counts.overtaken += usize::from(!one.is_copy && one.place < self.latest);
            self.latest = self.latest.max(one.place);
        }
        arrived.into_iter().map(|one| one.message).collect()
    }

    /// How many messages are on the air, copies included.
    pub fn flying(&self) -> usize {
        self.flying.len()
    }

    fn chance(&mut self, percent: u8) -> bool {
        self.random.below(100) < usize::from(percent)
    }

    fn between(&mut self, (low, high): (u64, u64)) -> Duration {
        let more = (self.random.unit() * (high - low) as f64) as u64;
        Duration::from_millis(low + more)
    }
}

#[cfg(test)]
mod tests {
    use super::*;
    use mulkefi::MESSAGE_SIZE;

    const SURE: Settings = Settings { loss: 0, repeats: 0, reordering: 0 };

    fn message(number: u8) -> Message {
        [number; MESSAGE_SIZE]
    }

    fn milliseconds(count: u64) -> Duration {
        Duration::from_millis(count)
    }

    #[test]
    fn a_sure_radio_brings_each_message_once_and_in_order() {
        let mut air = Air::new(SURE, 1);
        for number in 0..100 {
            air.send(&message(number), milliseconds(number.into()));
        }
        assert_eq!((air.arrived(milliseconds(249)).len(), air.flying()), (0, 100));
        let expected: Vec<Message> = (0..=50).map(message).collect();
        assert_eq!(air.arrived(milliseconds(300)), expected);
        assert_eq!(air.arrived(milliseconds(349)).len(), 49);
        assert_eq!(air.counts, Counts { sent: 100, ..Counts::default() });
    }

    #[test]
    fn a_radio_that_loses_all_brings_nothing() {
        let mut air = Air::new(Settings { loss: 100, repeats: 100, reordering: 100 }, 1);
        (0..100).for_each(|number| air.send(&message(number), Duration::ZERO));
        assert_eq!((air.flying(), air.counts.lost, air.counts.repeated), (0, 100, 0));
    }

    #[test]
    fn repeats_come_twice_and_later() {
        let mut air = Air::new(Settings { repeats: 100, ..SURE }, 1);
        air.send(&message(1), Duration::ZERO);
        assert_eq!(air.arrived(milliseconds(549)), [message(1)]);
        assert_eq!(air.arrived(milliseconds(1150)), [message(1)]);
        assert_eq!((air.counts.repeated, air.counts.overtaken, air.flying()), (1, 0, 0));
    }

    #[test]
    fn what_is_held_back_is_overtaken() {
        let mut air = Air::new(Settings { reordering: 100, ..SURE }, 1);
        air.send(&message(1), Duration::ZERO);
        air.settings = SURE;
        air.send(&message(2), milliseconds(10));
        assert_eq!(air.arrived(milliseconds(849)), [message(2)]);
        assert_eq!(air.arrived(milliseconds(1850)), [message(1)]);
        assert_eq!(air.counts.overtaken, 1);
    }

    #[test]
    fn chances_are_about_what_they_say() {
        let mut air = Air::new(Settings { loss: 25, repeats: 10, reordering: 50 }, 1);
        for step in 0..10_000 {
            air.send(&message(0), milliseconds(step * 10));
            air.arrived(milliseconds(step * 10));
        }
        assert!((2_300..2_700).contains(&air.counts.lost), "{:?}", air.counts);
        assert!((650..850).contains(&air.counts.repeated), "{:?}", air.counts);
        assert!((3_500..4_000).contains(&air.counts.overtaken), "{:?}", air.counts);
    }

    #[test]
    fn the_air_carries_no_more_than_its_most() {
        let mut air = Air::new(SURE, 1);
        (0..MOST + 5).for_each(|_| air.send(&message(0), Duration::ZERO));
        assert_eq!((air.flying(), air.counts.lost), (MOST, 5));
    }
}
