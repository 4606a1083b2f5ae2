//! The simulated radio, by which all hear all. It loses packets, repeats some and lets them overtake each
//! other; behind a closed door it loses all.

/// Who sends and hears, by the address that a radio or a network gives. The neighbour stands for all that
/// is neither.
#[derive(Clone, Copy, PartialEq, Eq)]
pub enum Station {
    Desk,
    Wall,
    Neighbour,
}

#[derive(Clone)]
pub struct Packet {
    pub from: Station,
    pub bytes: Vec<u8>,
}

pub struct Radio {
    random: u64,
    to_desk: Vec<Packet>,
    to_wall: Vec<Packet>,
    pub is_door_closed: bool,
    pub lost: usize,
    pub repeated: usize,
}

impl Radio {
    pub fn new(seed: u64) -> Radio {
        let (to_desk, to_wall) = (Vec::new(), Vec::new());
        Radio { random: seed, to_desk, to_wall, is_door_closed: false, lost: 0, repeated: 0 }
    }

    /// A number below `bound`, by splitmix64.
    fn below(&mut self, bound: usize) -> usize {
        self.random = self.random.wrapping_add(0x9e37_79b9_7f4a_7c15);
        let mut z = self.random;
        z = (z ^ (z >> 30)).wrapping_mul(0xbf58_476d_1ce4_e5b9);
        z = (z ^ (z >> 27)).wrapping_mul(0x94d0_49bb_1331_11eb);
        ((z ^ (z >> 31)) % bound as u64) as usize
    }

    fn on_the_way(&mut self, to: Station) -> &mut Vec<Packet> {
        match to {
            Station::Desk => &mut self.to_desk,
            _ => &mut self.to_wall,
        }
    }

    /// Of ten packets on the way to a listener two are lost and two come twice.
    pub fn send(&mut self, from: Station, bytes: &[u8]) {
        for to in [Station::Desk, Station::Wall].into_iter().filter(|to| *to != from) {
            let copies = match self.below(10) {
                _ if self.is_door_closed => 0,
                0 | 1 => 0,
                2 | 3 => 2,
                _ => 1,
            };
            self.lost += usize::from(copies == 0);
            self.repeated += usize::from(copies == 2);
            let packet = Packet { from, bytes: bytes.to_vec() };
            self.on_the_way(to).extend(std::iter::repeat_n(packet, copies));
        }
    }

    /// Takes any packet that is on its way to a listener; none where none is, and now and then too where
    /// the rest is late.
    pub fn receive(&mut self, to: Station) -> Option<Packet> {
        let number = self.number(to);
        if number == 0 || self.below(4) == 0 {
            return None;
        }
        let place = self.below(number);
        Some(self.on_the_way(to).swap_remove(place))
    }

    /// How many packets are on their way to a listener.
    pub fn number(&mut self, to: Station) -> usize {
        self.on_the_way(to).len()
    }
}
