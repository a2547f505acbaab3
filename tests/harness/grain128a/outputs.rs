//! Outputs that are too short, just long enough, and longer.

use super::BORDERS;
use crate::judge::{Judge, Verdict};
use tikhoplav::sizes::MESSAGE_MAX;

pub fn run(judge: &mut Judge) -> Verdict {
    for tag_bits in BORDERS {
        for message_len in (0..=20).chain([255, 256, 1000]) {
            rooms(judge, tag_bits, message_len)?;
        }
    }
    rooms(judge, 32, MESSAGE_MAX)
}

fn rooms(judge: &mut Judge, tag_bits: u32, message_len: usize) -> Verdict {
    for (mut trial, result) in judge.grain128a_calls(tag_bits, message_len) {
        let exact = result.len();
        let too_short = [0, exact / 2, exact.saturating_sub(1)];
        for room in too_short.into_iter().filter(|&room| room < exact) {
            trial.lent = judge.random.bytes(room);
            judge.expect_grain128a(&trial, &trial.refusal(6))?;
        }
        for room in [exact, exact + 1, exact + 4, exact + 100] {
            trial.lent = judge.random.bytes(room);
            judge.expect_grain128a(&trial, &trial.success(&result))?;
        }
    }
    Ok(())
}
