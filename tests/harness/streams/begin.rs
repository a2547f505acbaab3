//! Begins: what they refuse, and that it is all one what the state held.

use super::call::StreamCall;
use super::KINDS;
use crate::judge::{Judge, Verdict};
use tikhoplav::pieces::Kind;
use tikhoplav::sizes::{AD_MAX, STATE_SIZE};

/// The rows of a begin, in the order of its checks.
const ROWS: [u8; 6] = [23, 1, 2, 15, 3, 14];

/// Makes every set of rows apply but the empty one; the first of the set is the answer. (Rows 1 and
/// 15 exclude each other: together they make a key of 15 zero bytes.)
pub fn faults(judge: &mut Judge) -> Verdict {
    for kind in KINDS {
        for set in 1..1_usize << ROWS.len() {
            let chosen = ROWS.iter().enumerate().filter(|(i, _)| set >> i & 1 == 1);
            let chosen: Vec<u8> = chosen.map(|(_, &row)| row).collect();
            let mut begin = judge.begin(kind, 3);
            let mut state = judge.begun(kind, 3)?.state;
            for &row in &chosen {
                make_apply(&mut begin, &mut state, row);
            }
            judge.refuse(&begin, &state, chosen[0])?;
        }
        key_and_nonce_sizes(judge, kind)?;
    }
    Ok(())
}

fn make_apply(begin: &mut StreamCall, state: &mut Vec<u8>, row: u8) {
    let StreamCall::Begin {
        edition,
        key,
        nonce,
        ad_len,
        ..
    } = begin
    else {
        unreachable!("a begin")
    };
    match row {
        23 => *edition += 2,
        1 => key.truncate(15),
        2 => nonce.push(0),
        15 => key.fill(0),
        3 => *ad_len = AD_MAX + 1,
        14 => state.truncate(STATE_SIZE - 1),
        _ => unreachable!("no row {row}"),
    }
}

fn key_and_nonce_sizes(judge: &mut Judge, kind: Kind) -> Verdict {
    for key_len in [0, 15, 17, 32] {
        for nonce_len in [0, 11, 13, 16] {
            let mut begin = judge.begin(kind, 3);
            let state = judge.random.bytes(STATE_SIZE);
            if let StreamCall::Begin { nonce, .. } = &mut begin {
                nonce.resize(nonce_len, 0);
            }
            judge.refuse(&begin, &state, 2)?;
            if let StreamCall::Begin { key, .. } = &mut begin {
                key.resize(key_len, 0);
            }
            judge.refuse(&begin, &state, 1)?;
        }
    }
    Ok(())
}

/// Around every power of two, so that a number cut to fewer bits is among them.
pub fn unknown_editions(judge: &mut Judge) -> Verdict {
    let powers = (2..32).flat_map(|k| (0..4).map(move |low| (1 << k) + low));
    for number in [0, 3, u32::MAX].into_iter().chain(powers) {
        for kind in KINDS {
            let mut begin = judge.begin(kind, 3);
            if let StreamCall::Begin { edition, .. } = &mut begin {
                *edition = number;
            }
            let state = judge.random.bytes(STATE_SIZE);
            judge.refuse(&begin, &state, 23)?;
            judge.refuse(&begin, &[], 23)?;
        }
    }
    Ok(())
}

/// Around the borders of the coded length's forms, at the limit, and such as would be in order, were
/// they cut to fewer bits.
pub fn ad_lengths(judge: &mut Judge) -> Verdict {
    let powers = (9..16).flat_map(|k| (1 << k) - 1..=(1 << k) + 1);
    for ad_len in (0..=300).chain(powers).chain([AD_MAX - 1, AD_MAX]) {
        for kind in KINDS {
            judge.begun(kind, ad_len)?.beside_machine(judge)?;
        }
    }
    let cut = (16..usize::BITS).flat_map(|k| (0..3).map(move |low| (1 << k) + low));
    for ad_len in cut.chain([usize::MAX - 1, usize::MAX]) {
        for kind in KINDS {
            let begin = judge.begin(kind, ad_len);
            let state = judge.random.bytes(STATE_SIZE);
            judge.refuse(&begin, &state, 3)?;
        }
    }
    Ok(())
}

/// The state is the same afterwards, whatever it was: random bytes, one byte in all places, or a
/// stream of either kind in any place.
pub fn on_any_bytes(judge: &mut Judge) -> Verdict {
    for kind in KINDS {
        let begin = judge.begin(kind, 5);
        let expected = begin.by_model(&[0; STATE_SIZE]);
        let mut states: Vec<Vec<u8>> = vec![vec![0; STATE_SIZE], vec![0xff; STATE_SIZE]];
        states.extend((0..100).map(|_| judge.random.bytes(STATE_SIZE)));
        for other in KINDS {
            states.extend(judge.stages(other, 3)?);
        }
        for state in states {
            let outcome = judge.agree(&begin, &state)?;
            judge.holds("a begin starts anew", outcome == expected)?;
        }
    }
    Ok(())
}
