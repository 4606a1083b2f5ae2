//! The table of what happened in a simulated hall.

use crate::hall::Hall;
use crate::radio::Traffic;
use crate::simulation::Simulation;
use crate::tally::Tally;

pub fn print(hall: &Hall) {
    let simulations = &hall.simulations;
    let row = |name: &str, cell: &dyn Fn(&Simulation) -> String| {
        let cells: String = simulations.iter().map(|one| format!("{:>14}", cell(one))).collect();
        println!("{name:<28}{cells}");
    };
    let count = |name: &str, of: fn(&Tally) -> usize| row(name, &|one| of(&one.tally).to_string());
    let traffic = |name: &str, of: fn(&Traffic) -> usize| {
        let places = 0..simulations.len();
        let cells: String = places.map(|at| format!("{:>14}", of(&hall.traffic(at)))).collect();
        println!("{name:<28}{cells}");
    };
    row("bridge", &|simulation| simulation.name().to_string());
    row("desk's starts", &|simulation| simulation.starts().to_string());
    count("edits asked at the desk", |tally| tally.asked);
    count("accepted", |tally| tally.accepted);
    count("pieces cut away", |tally| tally.cut_away);
    count("refused", |tally| tally.refused.values().sum());
    count("refused by a relation", |tally| tally.named);
    count("that is the first not met", |tally| tally.named_first);
    traffic("messages sent", |traffic| traffic.sent);
    traffic("lost by the radio", |traffic| traffic.lost);
    traffic("repeated", |traffic| traffic.repeated);
    traffic("overtaken", |traffic| traffic.overtaken);
    count("old at the wall", |tally| tally.old);
    count("ahead at the wall", |tally| tally.ahead);
    count("foreign at the wall", |tally| tally.foreign);
    count("missed behind the door", |tally| tally.missed);
    count("caught up by", |tally| tally.caught_up_at_door);
    row("started again", &|simulation| simulation.tally.starts());
    row("wall's count as sent", &|simulation| simulation.tally.wall_before.to_string());
    row("wall's count caught up", &|simulation| simulation.wall_count().to_string());
    row("desk's count", &|simulation| simulation.desk_count().to_string());
    row("same image", &|simulation| if simulation.agrees() { "yes".into() } else { "no".into() });
    row("circles not cut", &|simulation| simulation.desk_rings().uncut.to_string());
    row("circles removed whole", &|simulation| simulation.desk_rings().removed_whole.to_string());
    row("circles cut", &|simulation| simulation.desk_rings().cut.to_string());
    row("rings closed at the desk", &|simulation| simulation.desk_rings().closed.to_string());
    row("cut since the wall's start", &|simulation| simulation.wall_rings().cut.to_string());
    row("rings closed at the wall", &|simulation| simulation.wall_rings().closed.to_string());
    for simulation in simulations {
        println!("{} refused by number: {}", simulation.name(), simulation.tally.refusals());
    }
}
