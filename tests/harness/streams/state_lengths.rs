//! States that are not of 64 bytes.

use super::KINDS;
use crate::judge::{Judge, Verdict};
use tikhoplav::sizes::STATE_SIZE;

const LONGEST: usize = 130;

/// A sound state cut short, and continued with zeros or with itself.
pub fn run(judge: &mut Judge) -> Verdict {
    for kind in KINDS {
        for state in judge.stages(kind, 3)? {
            let zeros = [&state[..], &[0; LONGEST]].concat();
            for length in (0..=LONGEST).filter(|&length| length != STATE_SIZE) {
                for long in [&zeros, &state.repeat(3)] {
                    refused(judge, &long[..length])?;
                }
            }
            for more in [256, 65536] {
                refused(judge, &[&state[..], &vec![0; more]].concat())?;
            }
        }
    }
    Ok(())
}

fn refused(judge: &mut Judge, state: &[u8]) -> Verdict {
    let begins = KINDS.map(|kind| judge.begin(kind, 3));
    let calls = [judge.calls(0, state), judge.calls(1, state)].concat();
    for call in calls.into_iter().chain(begins) {
        judge.refuse(&call, state, 14)?;
    }
    Ok(())
}
