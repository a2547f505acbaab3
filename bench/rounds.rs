//! Rounds of two pieces of work by turns.

use std::time::{Duration, Instant};

pub const ROUNDS: usize = 41;
pub const ROUND_TIME: Duration = Duration::from_millis(4);

/// The archive's work and the yardstick's.
pub struct Pair {
    pub ours: Box<dyn FnMut()>,
    pub yardstick: Box<dyn FnMut()>,
}

/// How many times faster the archive is.
pub struct Ratios {
    pub best: f64,
    pub median: f64,
    pub least: f64,
    pub most: f64,
}

/// How long a piece of work takes, in seconds, over as many calls as fill a round.
pub fn timed(work: &mut dyn FnMut()) -> f64 {
    let start = Instant::now();
    let mut calls = 0;
    loop {
        work();
        calls += 1;
        let elapsed = start.elapsed();
        if elapsed >= ROUND_TIME {
            return elapsed.as_secs_f64() / f64::from(calls);
        }
    }
}

pub fn least(values: impl Iterator<Item = f64>) -> f64 {
    values.fold(f64::INFINITY, f64::min)
}

/// After one round of each that warms up and is not counted.
pub fn ratios(pair: &mut Pair) -> Ratios {
    let mut round = || (timed(&mut *pair.ours), timed(&mut *pair.yardstick));
    round();
    let rounds: Vec<(f64, f64)> = (0..ROUNDS).map(|_| round()).collect();
    let best_ours = least(rounds.iter().map(|round| round.0));
    let best_yardstick = least(rounds.iter().map(|round| round.1));
    let mut each: Vec<f64> = rounds.iter().map(|round| round.1 / round.0).collect();
    each.sort_by(f64::total_cmp);
    Ratios {
        best: best_yardstick / best_ours,
        median: each[ROUNDS / 2],
        least: each[0],
        most: each[ROUNDS - 1],
    }
}
