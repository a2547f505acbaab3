//! Inputs to which several rows of the table of refusals apply at once.

use super::trial::{Call, Trial};
use crate::judge::{Judge, Verdict};
use tikhoplav::sizes::MESSAGE_MAX;

const MESSAGE_LENS: [usize; 3] = [1, 20, 40];

/// A row, and what makes it apply and leaves the rows above it as they are.
type Fault = (u8, fn(&mut Trial));

const OF_ALL: [Fault; 8] = [
    (1, |trial| trial.key.clear()),
    (1, |trial| trial.key.truncate(15)),
    (1, |trial| trial.key.push(1)),
    (2, |trial| trial.nonce.clear()),
    (2, |trial| trial.nonce.truncate(11)),
    (2, |trial| trial.nonce.push(0)),
    (15, |trial| trial.key.fill(0)),
    (19, |trial| trial.nonce[0] ^= 0x80),
];

const OF_TAGS: [Fault; 5] = [
    (20, |trial| trial.tag_bits = 0),
    (20, |trial| trial.tag_bits = 33),
    (20, |trial| trial.tag_bits |= 64),
    (20, |trial| trial.tag_bits = 1 << 31),
    (20, |trial| trial.tag_bits = u32::MAX),
];

/// With room for the result, if it were legal.
const TOO_LONG: [Fault; 2] = [
    (4, |trial| lengthen(trial, 1)),
    (4, |trial| lengthen(trial, 5000)),
];

const NO_ROOM: [Fault; 2] = [
    (6, |trial| trial.lent.clear()),
    (6, |trial| shorten(&mut trial.lent)),
];

const WRONG_TAG: [Fault; 3] = [
    (7, |trial| trial.data[0] ^= 0x80),
    (7, |trial| *last(trial) ^= 0x20),
    (7, |trial| *last(trial) ^= 1),
];

/// An output of nothing is long enough then.
const TOO_SHORT: [Fault; 3] = [
    (5, |trial| trial.data.truncate(trial.tag_size() - 1)),
    (5, |trial| trial.data.truncate(1)),
    (5, |trial| trial.data.clear()),
];

/// The tag's bits lie in two bytes, and leave five in the last.
const TAG_BITS: u32 = 11;

fn lengthen(trial: &mut Trial, by: usize) {
    let longest = match trial.call {
        Call::Open => MESSAGE_MAX + trial.tag_size(),
        _ => MESSAGE_MAX,
    };
    trial.data.resize(longest + by, 1);
    trial.lent.resize(longest + by + trial.tag_size(), 0xa5);
}

fn shorten(bytes: &mut Vec<u8>) {
    bytes.pop();
}

fn last(trial: &mut Trial) -> &mut u8 {
    trial.data.last_mut().expect("a tag")
}

/// Every fault alone, and every two.
pub fn pairs(judge: &mut Judge) -> Verdict {
    for (legal, faults) in trials(judge) {
        for (i, &first) in faults.iter().enumerate() {
            refused(judge, &legal, &[first])?;
            for &second in &faults[i + 1..] {
                refused(judge, &legal, &[first, second])?;
            }
        }
    }
    Ok(())
}

/// Every set of rows but the empty one, with one of each row's faults.
pub fn sets(judge: &mut Judge) -> Verdict {
    for (legal, faults) in trials(judge) {
        let rows: Vec<&[Fault]> = faults.chunk_by(|a, b| a.0 == b.0).collect();
        for set in 1..1_usize << rows.len() {
            let chosen = rows.iter().enumerate().filter(|(i, _)| set >> i & 1 == 1);
            let chosen: Vec<Fault> = chosen.map(|(_, row)| judge.random.pick(row)).collect();
            refused(judge, &legal, &chosen)?;
        }
    }
    Ok(())
}

/// Legal trials of all calls, each with faults that it can have at once, in the order of their rows.
fn trials(judge: &mut Judge) -> Vec<(Trial, Vec<Fault>)> {
    let of_sealing = [&OF_ALL[..], &OF_TAGS, &TOO_LONG, &NO_ROOM].concat();
    let of_opening = [&OF_ALL[..], &OF_TAGS, &TOO_LONG, &NO_ROOM, &WRONG_TAG].concat();
    let of_short_inputs = [&OF_ALL[..], &OF_TAGS, &TOO_SHORT, &NO_ROOM].concat();
    let of_crypt = [&OF_ALL[..], &TOO_LONG, &NO_ROOM].concat();
    let mut trials = Vec::new();
    for message_len in MESSAGE_LENS {
        let calls = judge.grain128a_calls(TAG_BITS, message_len);
        let [sealing, opening, crypt] = calls.map(|(trial, _)| trial);
        trials.push((sealing, of_sealing.clone()));
        trials.push((opening.clone(), of_opening.clone()));
        trials.push((opening, of_short_inputs.clone()));
        trials.push((crypt, of_crypt.clone()));
    }
    trials
}

/// With these faults the row of the first is the answer. The last is made first, so that none undoes
/// one above it.
fn refused(judge: &mut Judge, legal: &Trial, faults: &[Fault]) -> Verdict {
    let mut trial = legal.clone();
    for (_, spoil) in faults.iter().rev() {
        spoil(&mut trial);
    }
    judge.expect_grain128a(&trial, &trial.refusal(faults[0].0))
}
