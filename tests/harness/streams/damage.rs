//! States with a byte changed, in every place of a stream.

use super::KINDS;
use crate::judge::{Judge, Verdict};
use tikhoplav::sizes::STATE_SIZE;

/// Where the registers end.
const REGISTERS: usize = 48;

pub fn every_byte(judge: &mut Judge) -> Verdict {
    for kind in KINDS {
        for ad_len in [3, 300] {
            for state in judge.stages(kind, ad_len)? {
                for place in 0..STATE_SIZE {
                    damage(judge, &state, place)?;
                }
            }
        }
    }
    Ok(())
}

/// Every value behind the registers, and some in them.
fn damage(judge: &mut Judge, state: &[u8], place: usize) -> Verdict {
    let byte = state[place];
    let random = judge.random.number() as u8;
    let some = [!byte, byte ^ 0x80, byte ^ 1, 0, random];
    let all: Vec<u8> = (0..=u8::MAX).collect();
    let values = if place < REGISTERS { &some[..] } else { &all };
    let mut damaged = state.to_vec();
    for &value in values {
        damaged[place] = value;
        tried(judge, &damaged, place)?;
    }
    for kind in KINDS {
        let begin = judge.begin(kind, 3);
        judge.agree(&begin, &damaged)?;
    }
    Ok(())
}

fn tried(judge: &mut Judge, state: &[u8], place: usize) -> Verdict {
    let value = state[place];
    let unsound = match place {
        0..REGISTERS => Some(false),
        48 | 56 => Some(!(1..=2).contains(&value)),
        49 => (value > 1).then_some(true),
        50..56 => None,
        _ => Some(value != 0),
    };
    let calls = [judge.calls(0, state), judge.calls(1, state)].concat();
    for call in calls {
        let answer = judge.agree(&call, state)?.answer;
        if let Some(unsound) = unsound {
            judge.holds("14 is for what can't occur", unsound == (answer == -14))?;
        }
    }
    Ok(())
}
