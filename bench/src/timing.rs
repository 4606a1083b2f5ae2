//! Two sides of one piece of work, timed in turn.

use std::time::Instant;

/// Rounds in which each side is timed once; odd, so that the median is one of them.
const ROUNDS: usize = 301;
/// Long enough that the clock's own steps do not show.
const ROUND_NANOSECONDS: f64 = 400_000.0;

/// Nanoseconds for one call, by side.
#[derive(Clone, Copy)]
pub struct Times {
    pub engine: f64,
    pub oracle: f64,
}

impl Times {
    pub fn print(self, name: &str) {
        self.print_with(name, 0);
    }

    /// Prints tenths of a nanosecond too, for work of a few nanoseconds.
    pub fn print_fine(self, name: &str) {
        self.print_with(name, 1);
    }

    fn print_with(self, name: &str, digits: usize) {
        let ratio = self.engine / self.oracle;
        let (engine, oracle) = (self.engine, self.oracle);
        println!("{name:<44} {engine:>10.digits$} {oracle:>10.digits$} {ratio:>7.2}");
    }
}

pub fn print_heading() {
    println!("{:<44} {:>10} {:>10} {:>7}", "ns a call, medians", "engine", "Rust", "ratio");
}

/// The medians of many rounds; the sides take turns, so that a change of the clock shows in both.
pub fn measure(mut engine: impl FnMut(), mut oracle: impl FnMut()) -> Times {
    let (engine_calls, oracle_calls) = (calls_a_round(&mut engine), calls_a_round(&mut oracle));
    let (mut engine_times, mut oracle_times) = (Vec::new(), Vec::new());
    for _ in 0..ROUNDS {
        engine_times.push(time(&mut engine, engine_calls));
        oracle_times.push(time(&mut oracle, oracle_calls));
    }
    Times { engine: median(engine_times), oracle: median(oracle_times) }
}

/// Several pieces of work, each timed once in every round: a difference of two is taken round by round, so that a change
/// of the machine's speed between rounds does not show in it.
pub struct Rounds<const N: usize> {
    times: Vec<[f64; N]>,
}

impl<const N: usize> Rounds<N> {
    pub fn new(mut works: [&mut dyn FnMut(); N]) -> Rounds<N> {
        let calls = works.each_mut().map(|work| calls_a_round(work));
        let round = |_| std::array::from_fn(|k| time(&mut works[k], calls[k]));
        Rounds { times: (0..ROUNDS).map(round).collect() }
    }

    /// The median over the rounds of what is made of each round's times.
    pub fn median(&self, of: impl Fn(&[f64; N]) -> f64) -> f64 {
        median(self.times.iter().map(of).collect())
    }
}

/// Nanoseconds for one call of each side: medians of a few rounds in which the sides take turns.
/// For calls that are long enough to be timed one by one.
pub fn medians_in_turn<const N: usize>(mut sides: [&mut dyn FnMut(); N]) -> [f64; N] {
    const FEW_ROUNDS: usize = 11;
    sides.iter_mut().for_each(|side| side());
    let mut times: [Vec<f64>; N] = std::array::from_fn(|_| Vec::new());
    for _ in 0..FEW_ROUNDS {
        for (side, times) in sides.iter_mut().zip(&mut times) {
            times.push(time(side, 1));
        }
    }
    times.map(median)
}

/// How many calls fill a round; the trial warms caches too.
fn calls_a_round(work: &mut impl FnMut()) -> usize {
    let one = time(work, 100);
    (ROUND_NANOSECONDS / one).ceil().max(1.0) as usize
}

fn time(work: &mut impl FnMut(), calls: usize) -> f64 {
    let start = Instant::now();
    for _ in 0..calls {
        work();
    }
    start.elapsed().as_nanos() as f64 / calls as f64
}

fn median(mut times: Vec<f64>) -> f64 {
    times.sort_by(f64::total_cmp);
    times[times.len() / 2]
}
