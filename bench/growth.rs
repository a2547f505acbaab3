//! How the cost of sealing grows with the AD and with the message.

use crate::jobs::Job;
use crate::rounds::{least, timed, ROUNDS};
use tikhoplav::sizes::{AD_MAX, MESSAGE_MAX};

const KIB: usize = 1024;
const LENS: [usize; 5] = [KIB, 4 * KIB, 16 * KIB, 32 * KIB, 48 * KIB];

/// The best rounds of several jobs by turns, in seconds.
fn best(mut jobs: Vec<Job>) -> Vec<f64> {
    let rounds: Vec<Vec<f64>> = (0..ROUNDS)
        .map(|_| {
            jobs.iter_mut()
                .map(|job| timed(&mut || job.by_archive()))
                .collect()
        })
        .collect();
    (0..jobs.len())
        .map(|job| least(rounds.iter().map(|round| round[job])))
        .collect()
}

/// The cost of a byte at each length, beyond the cost of none, as a part of that at the largest.
fn line(name: &str, largest: usize, job: fn(usize) -> Job) {
    let lens: Vec<usize> = LENS.into_iter().chain([largest]).collect();
    let costs = best([0].iter().chain(&lens).map(|&len| job(len)).collect());
    let per_byte: Vec<f64> = lens
        .iter()
        .zip(&costs[1..])
        .map(|(&len, cost)| (cost - costs[0]) / len as f64)
        .collect();
    for (len, cost) in lens.iter().zip(&per_byte) {
        let part = cost / per_byte[lens.len() - 1];
        println!("{name:<26} {len:>7} {part:>8.2}");
    }
}

pub fn print() {
    line("message, bytes", MESSAGE_MAX, |len| Job::sealing(1, 0, len));
    line("AD, bytes", AD_MAX, |len| Job::sealing(1, len, 0));
}
