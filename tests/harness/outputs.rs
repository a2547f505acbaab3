//! Outputs that are too short, just long enough, and longer.

use crate::judge::{Judge, Verdict};
use tikhoplav::sizes::MESSAGE_MAX;

pub fn run(judge: &mut Judge) -> Verdict {
    for message_len in (0..=32).chain([255, 256, 1000, MESSAGE_MAX]) {
        for (mut trial, result) in judge.both_calls(9, message_len) {
            let exact = result.len();
            let too_short = [0, exact / 2, exact.saturating_sub(1)];
            for room in too_short.into_iter().filter(|&room| room < exact) {
                trial.lent = judge.random.bytes(room);
                judge.expect(&trial, &trial.refusal(6))?;
            }
            for room in [exact, exact + 1, exact + 8, exact + 100] {
                trial.lent = judge.random.bytes(room);
                judge.expect(&trial, &trial.success(&result))?;
            }
        }
    }
    Ok(())
}
