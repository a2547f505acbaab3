//! Inputs to which several rows of the table of refusals apply at once.

use super::trial::Trial;
use crate::judge::{Judge, Verdict};
use tikhoplav::sizes::MESSAGE_MAX;

const MESSAGE_LENS: [usize; 4] = [1, 2, 20, 40];

/// A row, and what makes it apply and leaves the rows above it as they are.
type Fault = (u8, fn(&mut Trial));

/// In the order of their rows. A message that is too long has room for the result, if it were legal.
const FAULTS: [Fault; 18] = [
    (1, |trial| trial.key = vec![0; 9]),
    (1, |trial| trial.key.clear()),
    (1, |trial| trial.key.truncate(8)),
    (1, |trial| trial.key.truncate(9)),
    (1, |trial| trial.key.push(1)),
    (1, |trial| trial.key.resize(16, 1)),
    (2, |trial| trial.nonce.clear()),
    (2, |trial| trial.nonce.truncate(7)),
    (2, |trial| trial.nonce.push(0)),
    (2, |trial| trial.nonce.resize(10, 0)),
    (2, |trial| trial.nonce.resize(12, 0)),
    (4, |trial| lengthen(trial, 1)),
    (4, |trial| lengthen(trial, 5000)),
    (4, |trial| lengthen(trial, MESSAGE_MAX)),
    (6, |trial| trial.lent.clear()),
    (6, |trial| trial.lent.truncate(trial.message.len() / 2)),
    (6, |trial| trial.lent.truncate(trial.message.len() - 1)),
    (6, lengthen_beyond_room),
];

fn lengthen(trial: &mut Trial, by: usize) {
    let short = trial.lent.len() < trial.message.len();
    trial.message.resize(MESSAGE_MAX + by, 1);
    if !short {
        trial.lent.resize(MESSAGE_MAX + by, 0xa5);
    }
}

/// A legal message for which the output is too short.
fn lengthen_beyond_room(trial: &mut Trial) {
    trial.message.resize(MESSAGE_MAX, 1);
}

/// Every fault alone, and every two.
pub fn pairs(judge: &mut Judge) -> Verdict {
    for message_len in MESSAGE_LENS {
        let legal = judge.grainv1(message_len);
        judge.accepts_grainv1(&legal)?;
        for (i, &first) in FAULTS.iter().enumerate() {
            refused(judge, &legal, &[first])?;
            for &second in &FAULTS[i + 1..] {
                refused(judge, &legal, &[first, second])?;
            }
        }
    }
    Ok(())
}

/// Every set of rows but the empty one, with every choice of a fault of each of its rows.
pub fn sets(judge: &mut Judge) -> Verdict {
    let legal = judge.grainv1(MESSAGE_LENS[2]);
    let mut sets: Vec<Vec<Fault>> = vec![Vec::new()];
    for row in FAULTS.chunk_by(|a, b| a.0 == b.0) {
        let longer = |set: &Vec<Fault>| {
            row.iter()
                .map(|&fault| [&set[..], &[fault]].concat())
                .collect::<Vec<_>>()
        };
        let with_row: Vec<Vec<Fault>> = sets.iter().flat_map(longer).collect();
        sets.extend(with_row);
    }
    for set in &sets[1..] {
        refused(judge, &legal, set)?;
    }
    Ok(())
}

/// With these faults the row of the first is the answer. The last is made first, so that none undoes
/// one above it.
fn refused(judge: &mut Judge, legal: &Trial, faults: &[Fault]) -> Verdict {
    let mut trial = legal.clone();
    for (_, spoil) in faults.iter().rev() {
        spoil(&mut trial);
    }
    judge.expect_grainv1(&trial, &trial.refusal(faults[0].0))
}
