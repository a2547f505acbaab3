//! Inputs to which several rows of the table of refusals apply at once.

use crate::judge::{Judge, Verdict};
use crate::trial::Trial;
use tikhoplav::archive::Call;
use tikhoplav::sizes::{AD_MAX, MESSAGE_MAX, SEALED_MAX, TAG_SIZE};

pub fn run(judge: &mut Judge) -> Verdict {
    let sealing = judge.sealing(10, 20);
    let opening = judge.opening(&sealing);
    every_set(judge, &sealing, &[23, 1, 2, 15, 3, 4, 6])?;
    every_set(judge, &opening, &[23, 1, 2, 15, 3, 4, 6, 7])?;
    every_set(judge, &opening, &[23, 1, 2, 15, 3, 5, 7])
}

/// Makes every set of these rows apply but the empty one; the first of the set is the answer. (Rows
/// 1 and 15 exclude each other: together they make a key of 15 zero bytes.)
fn every_set(judge: &mut Judge, legal: &Trial, rows: &[u8]) -> Verdict {
    for set in 1..1_usize << rows.len() {
        let chosen = rows.iter().enumerate().filter(|(i, _)| set >> i & 1 == 1);
        let chosen: Vec<u8> = chosen.map(|(_, &row)| row).collect();
        let mut trial = legal.clone();
        for &row in &chosen {
            make_apply(&mut trial, row);
        }
        judge.expect(&trial, &trial.refusal(chosen[0]))?;
    }
    Ok(())
}

/// Makes a row apply, and keeps the rows above it as they are.
fn make_apply(trial: &mut Trial, row: u8) {
    match (row, trial.call) {
        (23, _) => trial.edition += 2,
        (1, _) => trial.key.truncate(15),
        (2, _) => trial.nonce.push(0),
        (15, _) => trial.key.fill(0),
        (3, _) => trial.ad.resize(AD_MAX + 1, 0),
        (4, Call::Seal) => with_room(trial, MESSAGE_MAX + 1),
        (4, Call::Open) => with_room(trial, SEALED_MAX + 1),
        (5, _) => trial.data.truncate(TAG_SIZE - 1),
        (6, Call::Seal) => trial.lent.truncate(trial.data.len() + TAG_SIZE - 1),
        (6, Call::Open) => trial.lent.truncate(trial.data.len() - TAG_SIZE - 1),
        (7, _) => *trial.data.last_mut().expect("a sealed input") ^= 1,
        _ => unreachable!("no row {row}"),
    }
}

/// Data of this length, and room for the result.
fn with_room(trial: &mut Trial, length: usize) {
    trial.data.resize(length, 0);
    trial.lent.resize(length + TAG_SIZE, 0xa5);
}
