//! The hall: bridges, each with a desk and a wall, and one radio by which every wall whose door is open hears
//! every desk. The hall keeps no message: what is due to a wall its desk has in its window.

use crate::bridges::Bridge;
use crate::radio::{Message, Radio, Sent, Traffic};
use crate::simulation::{Simulation, Whose};
use mulkefi::{Edit, Mark, Refusal};

/// How many random edits each desk is asked for after its script.
const RANDOM_EDITS: usize = 24;
/// How many of the messages due are sent again before a wall's count is looked at, and how often this is
/// done before it is given up.
const AT_A_TIME: usize = 3;
const MOST_ROUNDS: usize = 1_000;

pub struct Hall {
    pub simulations: Vec<Simulation>,
    radio: Radio,
}

/// The mark of a desk's start: the start's number and the desk's in the upper half, the run's, which all desks
/// share, in the lower.
fn mark(desk: usize, start: u64, run: u64) -> Mark {
    Mark::from(start << 48 | (desk as u64) << 32 | run & 0xffff_ffff)
}

impl Hall {
    pub fn new(bridges: impl IntoIterator<Item = Bridge>, seed: u64) -> Result<Hall, Refusal> {
        let places = bridges.into_iter().zip(0..);
        let simulations = places.map(|(bridge, place)| {
            let marks = [0, 1].map(|start| mark(place, start, seed));
            Simulation::new(bridge, marks, seed.wrapping_add(place as u64))
        });
        let simulations = simulations.collect::<Result<_, _>>()?;
        Ok(Hall { simulations, radio: Radio::new(seed ^ 0x5eed) })
    }

    /// Asks all edits and lets the walls catch up, or says which wall did what it may not.
    pub fn run(&mut self) -> Result<(), String> {
        self.run_scripts()?;
        for _ in 0..RANDOM_EDITS {
            self.ask_each(|simulation| Some(simulation.random_edit()))?;
        }
        self.deliver_rest()?;
        self.simulations.iter_mut().for_each(Simulation::note_count);
        self.catch_up()
    }

    pub fn run_scripts(&mut self) -> Result<(), String> {
        let longest = self.simulations.iter().map(|one| one.script().len()).max().unwrap_or(0);
        for place in 0..longest {
            self.simulations.iter_mut().try_for_each(|one| one.draw_later(place))?;
            self.ask_each(|one| one.script().get(place).copied())?;
        }
        Ok(())
    }

    /// Asks the desks in turn, each for an edit if there is one, and sends their messages.
    fn ask_each(&mut self, edit: impl Fn(&mut Simulation) -> Option<Edit>) -> Result<(), String> {
        for desk in 0..self.simulations.len() {
            let simulation = &mut self.simulations[desk];
            let Some(message) = edit(simulation).and_then(|edit| simulation.ask(&edit)) else {
                continue;
            };
            if simulation.door_opens() {
                simulation.come_in()?;
            }
            self.send(desk, message)?;
        }
        Ok(())
    }

    fn send(&mut self, desk: usize, message: Message) -> Result<(), String> {
        let start = self.simulations[desk].starts();
        let arrived = self.radio.transmit(Sent { desk, start, message });
        self.deliver(&arrived)
    }

    fn deliver_rest(&mut self) -> Result<(), String> {
        let arrived = self.radio.rest();
        self.deliver(&arrived)
    }

    /// What arrives, arrives at every wall.
    fn deliver(&mut self, arrived: &[Sent]) -> Result<(), String> {
        for Sent { desk, start, message } in arrived {
            for (place, simulation) in self.simulations.iter_mut().enumerate() {
                let is_own = place == *desk && *start == simulation.starts();
                let whose = if is_own { Whose::Own } else { Whose::Foreign };
                simulation.hear(message, whose)?;
            }
        }
        Ok(())
    }

    /// Desks send again what is due to their walls, a few messages at a time and by the same radio, until
    /// nothing is due.
    fn catch_up(&mut self) -> Result<(), String> {
        for _ in 0..MOST_ROUNDS {
            let mut is_level = true;
            for desk in 0..self.simulations.len() {
                let due = self.simulations[desk].due()?;
                is_level &= due.is_empty();
                due.into_iter().take(AT_A_TIME).try_for_each(|message| self.send(desk, message))?;
            }
            if is_level {
                return Ok(());
            }
            self.deliver_rest()?;
        }
        Err(format!("walls do not catch up in {MOST_ROUNDS} rounds"))
    }

    /// What became of the messages of the desk at a place.
    pub fn traffic(&self, desk: usize) -> Traffic {
        self.radio.traffic(desk)
    }

    /// Whether every desk and wall pass, and no wall was spared its neighbours' messages.
    pub fn passes(&self) -> bool {
        self.simulations.iter().all(|one| one.passes() && one.tally.foreign > 0)
    }
}

#[cfg(test)]
mod tests {
    use super::*;
    use crate::bridges;
    use crate::tally::Tally;

    fn run(bridges: impl IntoIterator<Item = Bridge>) -> Hall {
        let mut hall = Hall::new(bridges, 1).expect("bridges are good images");
        hall.run().expect("walls refuse what is ahead or foreign, and nothing else");
        hall
    }

    #[test]
    fn every_wall_hears_every_desk() {
        let hall = run(bridges::all());
        assert!(hall.passes());
        let came = hall.simulations.iter().map(|one| {
            let Tally { applied, old, ahead, foreign, missed, .. } = one.tally;
            assert_eq!(missed > 0, !one.shut().is_empty());
            applied + old + ahead + foreign + missed
        });
        let came: Vec<usize> = came.collect();
        assert_eq!(came, [came[0]; 3]);
    }

    #[test]
    fn a_hall_in_which_a_wall_has_no_neighbours_does_not_pass() {
        let [bridge, ..] = bridges::all();
        let hall = run([bridge]);
        assert!(hall.simulations[0].passes());
        assert!(!hall.passes());
    }
}
