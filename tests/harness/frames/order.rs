//! Inputs to which several rows of the table of refusals apply at once.

use super::trial::{Call, FrameTrial};
use crate::judge::{Judge, Verdict};

/// Their frames have two bytes of filler or more.
const MESSAGE_LENS: [usize; 4] = [1, 20, 24, 40];

/// A row, and what makes it apply and leaves the rows above it as they are.
type Fault = (u8, fn(&mut FrameTrial));

const OF_BOTH: [Fault; 13] = [
    (23, |trial| trial.edition = 0),
    (23, |trial| trial.edition = 3),
    (23, |trial| trial.edition = u32::MAX),
    (1, |trial| trial.key.clear()),
    (1, |trial| trial.key.truncate(15)),
    (1, |trial| trial.key.push(1)),
    (2, |trial| trial.nonce.clear()),
    (2, |trial| trial.nonce.truncate(11)),
    (2, |trial| trial.nonce.push(0)),
    (15, |trial| trial.key.fill(0)),
    (8, |trial| trial.identifier = 1 << 29),
    (8, |trial| trial.identifier |= 1 << 31),
    (8, |trial| trial.identifier = u32::MAX),
];

const OF_MAKING: [Fault; 5] = [
    (9, |trial| trial.data.resize(56, 1)),
    (9, |trial| trial.data.resize(57, 1)),
    (9, |trial| trial.data.resize(300, 1)),
    (6, |trial| trial.lent.clear()),
    (6, |trial| shorten(&mut trial.lent)),
];

const OF_READING: [Fault; 15] = [
    (10, |trial| trial.code = 16),
    (10, |trial| trial.code = u32::MAX),
    (10, |trial| trial.code += 1),
    (10, |trial| trial.data.push(0)),
    (11, |trial| resize(trial, 0)),
    (11, |trial| resize(trial, 8)),
    (11, |trial| resize(trial, other_code(trial))),
    (11, |trial| trial.data[0] = 56),
    (11, |trial| trial.data[0] = 255),
    (12, |trial| flip(trial, filler(trial))),
    (12, |trial| flip(trial, trial.data.len() - 1)),
    (6, |trial| trial.lent.clear()),
    (6, |trial| shorten(&mut trial.lent)),
    (7, |trial| flip(trial, 1)),
    (7, |trial| flip(trial, filler(trial) - 1)),
];

fn shorten(bytes: &mut Vec<u8>) {
    bytes.truncate(bytes.len() - 1);
}

/// Another code, and data of its length.
fn resize(trial: &mut FrameTrial, code: u32) {
    trial.code = code;
    trial.data.resize(trial.coded_length(), 0);
}

fn other_code(trial: &FrameTrial) -> u32 {
    if trial.code == 15 {
        14
    } else {
        15
    }
}

/// Flips a bit of a byte of the data.
fn flip(trial: &mut FrameTrial, place: usize) {
    trial.data[place] ^= 1;
}

/// Where the filler begins.
fn filler(trial: &FrameTrial) -> usize {
    9 + usize::from(trial.data[0])
}

/// Every fault alone, and every two.
pub fn pairs(judge: &mut Judge) -> Verdict {
    for (legal, faults) in trials(judge) {
        for (i, &first) in faults.iter().enumerate() {
            refused(judge, &legal, &[first])?;
            for &second in &faults[i + 1..] {
                refused(judge, &legal, &[first, second])?;
            }
        }
    }
    Ok(())
}

/// Every set of rows but the empty one, with one of each row's faults.
pub fn sets(judge: &mut Judge) -> Verdict {
    for (legal, faults) in trials(judge) {
        let rows: Vec<&[Fault]> = faults.chunk_by(|a, b| a.0 == b.0).collect();
        for set in 1..1_usize << rows.len() {
            let chosen = rows.iter().enumerate().filter(|(i, _)| set >> i & 1 == 1);
            let chosen: Vec<Fault> = chosen.map(|(_, row)| judge.random.pick(row)).collect();
            refused(judge, &legal, &chosen)?;
        }
    }
    Ok(())
}

/// Legal trials of both calls, each with the faults that it can have, in the order of their rows.
fn trials(judge: &mut Judge) -> Vec<(FrameTrial, Vec<Fault>)> {
    let mut trials = Vec::new();
    for message_len in MESSAGE_LENS {
        let making = judge.making(message_len);
        for trial in [judge.reading(&making, message_len), making] {
            let own = match trial.call {
                Call::Make => &OF_MAKING[..],
                Call::Read => &OF_READING[..],
            };
            trials.push((trial, [&OF_BOTH, own].concat()));
        }
    }
    trials
}

/// With these faults the row of the first is the answer. The last is made first, so that none undoes
/// one above it.
fn refused(judge: &mut Judge, legal: &FrameTrial, faults: &[Fault]) -> Verdict {
    let mut trial = legal.clone();
    for (_, spoil) in faults.iter().rev() {
        spoil(&mut trial);
    }
    judge.expect_frame(&trial, &trial.refusal(faults[0].0))
}
