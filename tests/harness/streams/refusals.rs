//! Calls on a stream to which several rows of the table of refusals apply at once.

use super::call::StreamCall;
use super::KINDS;
use crate::judge::{Judge, Verdict};
use tikhoplav::sizes::MESSAGE_MAX;

const AD_LEN: usize = 3;

#[derive(Clone)]
struct Trial {
    state: Vec<u8>,
    call: StreamCall,
}

/// A row, and what makes it apply and leaves the rows above it as they are.
type Fault = (u8, fn(&mut Trial));

const OF_ALL: [Fault; 12] = [
    (14, |trial| trial.state.truncate(63)),
    (14, |trial| trial.state.push(0)),
    (14, |trial| trial.state[48] += 2),
    (14, |trial| trial.state[49] += 2),
    (14, |trial| trial.state[52] = 0xff),
    (14, |trial| trial.state[54] = 0xff),
    (14, |trial| trial.state[56] = 0),
    (14, |trial| trial.state[56] += 2),
    (14, |trial| trial.state[57] = 1),
    (14, |trial| trial.state[63] = 0x80),
    (13, |trial| trial.state[48] ^= 3),
    (13, finished),
];

const OF_AD: [Fault; 2] = [
    (13, |trial| lengthen(&mut trial.call, AD_LEN + 1)),
    (13, |trial| lengthen(&mut trial.call, 70_000)),
];

const OF_CIPHERTEXT: [Fault; 4] = [
    (13, incomplete),
    (4, nearly_full),
    (4, |trial| lengthen(&mut trial.call, MESSAGE_MAX + 1)),
    (4, |trial| lengthen(&mut trial.call, 2 * 65536)),
];

const OF_MESSAGE: [Fault; 6] = [
    (13, incomplete),
    (4, nearly_full),
    (4, |trial| lengthen(&mut trial.call, MESSAGE_MAX + 1)),
    (4, too_long_with_room),
    (6, |trial| lent(&mut trial.call).clear()),
    (6, |trial| shorten(lent(&mut trial.call))),
];

const OF_SEAL: [Fault; 3] = [
    (13, incomplete),
    (6, |trial| lent(&mut trial.call).clear()),
    (6, |trial| shorten(lent(&mut trial.call))),
];

const OF_CHECK: [Fault; 6] = [
    (13, incomplete),
    (5, |trial| tag(&mut trial.call).clear()),
    (5, |trial| shorten(tag(&mut trial.call))),
    (5, |trial| tag(&mut trial.call).extend([0, 0])),
    (7, |trial| tag(&mut trial.call)[0] ^= 0x80),
    (7, |trial| tag(&mut trial.call)[7] ^= 1),
];

/// Ended, with its AD complete.
fn finished(trial: &mut Trial) {
    trial.state[49] = 1;
    trial.state.copy_within(50..52, 52);
}

/// A byte of the AD is missing, and none of the message is there.
fn incomplete(trial: &mut Trial) {
    trial.state[51] += 1;
    trial.state[54..56].fill(0);
}

/// Three bytes of the message are missing up to the limit.
fn nearly_full(trial: &mut Trial) {
    let taken = MESSAGE_MAX as u16 - 3;
    trial.state[54..56].copy_from_slice(&taken.to_be_bytes());
}

fn too_long_with_room(trial: &mut Trial) {
    lengthen(&mut trial.call, MESSAGE_MAX + 1);
    lent(&mut trial.call).resize(MESSAGE_MAX + 1, 0x5a);
}

fn lengthen(call: &mut StreamCall, length: usize) {
    match call {
        StreamCall::Ad { piece, .. }
        | StreamCall::Ciphertext { piece }
        | StreamCall::Message { piece, .. } => piece.resize(length, 1),
        _ => unreachable!("no piece"),
    }
}

fn lent(call: &mut StreamCall) -> &mut Vec<u8> {
    match call {
        StreamCall::Message { lent, .. } | StreamCall::Seal { lent } => lent,
        _ => unreachable!("no output"),
    }
}

fn tag(call: &mut StreamCall) -> &mut Vec<u8> {
    match call {
        StreamCall::Check { tag } => tag,
        _ => unreachable!("no tag"),
    }
}

fn shorten(bytes: &mut Vec<u8>) {
    bytes.truncate(bytes.len() - 1);
}

/// Every fault alone, and every two.
pub fn pairs(judge: &mut Judge) -> Verdict {
    for (legal, faults) in trials(judge)? {
        for (i, &first) in faults.iter().enumerate() {
            refused(judge, &legal, &[first])?;
            for &second in &faults[i + 1..] {
                refused(judge, &legal, &[first, second])?;
            }
        }
    }
    Ok(())
}

/// Every set of rows but the empty one, with one of each row's faults.
pub fn sets(judge: &mut Judge) -> Verdict {
    for (legal, faults) in trials(judge)? {
        let rows: Vec<&[Fault]> = faults.chunk_by(|a, b| a.0 == b.0).collect();
        for set in (1..1_usize << rows.len()).cycle().take(200) {
            let chosen = rows.iter().enumerate().filter(|(i, _)| set >> i & 1 == 1);
            let chosen: Vec<Fault> = chosen.map(|(_, row)| judge.random.pick(row)).collect();
            refused(judge, &legal, &chosen)?;
        }
    }
    Ok(())
}

/// Legal trials of every call, each with the faults that it can have, in the order of their rows.
fn trials(judge: &mut Judge) -> Result<Vec<(Trial, Vec<Fault>)>, String> {
    let mut trials = Vec::new();
    for kind in KINDS {
        let [begun, _, complete, with_message, ..] = &judge.stages(kind, AD_LEN)?[..] else {
            unreachable!("six places");
        };
        let calls = [
            (begun, judge.ad(kind, 2)),
            (complete, judge.data(kind, 4)),
            (with_message, judge.data(kind, 4)),
            (with_message, judge.finish(kind, with_message)),
        ];
        for (state, call) in calls {
            let faults = [&OF_ALL[..], own_faults(&call)].concat();
            let state = state.clone();
            judge.agree(&call, &state)?;
            trials.push((Trial { state, call }, faults));
        }
    }
    Ok(trials)
}

fn own_faults(call: &StreamCall) -> &'static [Fault] {
    match call {
        StreamCall::Ad { .. } => &OF_AD,
        StreamCall::Message { .. } => &OF_MESSAGE,
        StreamCall::Ciphertext { .. } => &OF_CIPHERTEXT,
        StreamCall::Seal { .. } => &OF_SEAL,
        StreamCall::Check { .. } => &OF_CHECK,
        StreamCall::Begin { .. } => &[],
    }
}

/// With these faults the row of the first is the answer. The last is made first, so that none undoes
/// one above it.
fn refused(judge: &mut Judge, legal: &Trial, faults: &[Fault]) -> Verdict {
    let mut trial = legal.clone();
    for (_, spoil) in faults.iter().rev() {
        spoil(&mut trial);
    }
    judge.refuse(&trial.call, &trial.state, faults[0].0)
}
