//! Inputs of every small size, of the sizes at the limits, and of random sizes.

use super::trial::{Call, Trial};
use super::BORDERS;
use crate::judge::{Judge, Verdict};
use tikhoplav::sizes::{grain128a_tag_size, KEY_SIZE, MESSAGE_MAX, NONCE_SIZE};

const SMALL: usize = 300;
const RANDOM_TRIALS: usize = 3_000;
const LONG_TRIALS: usize = 20;

/// Every message length, with every byte count of a tag.
pub fn small(judge: &mut Judge) -> Verdict {
    for message_len in 0..=SMALL {
        for tag_size in 0..4 {
            let tag_bits = 8 * tag_size + 1 + judge.random.below(8) as u32;
            for (trial, result) in judge.grain128a_calls(tag_bits, message_len) {
                judge.expect_grain128a(&trial, &trial.success(&result))?;
            }
        }
    }
    Ok(())
}

pub fn limits(judge: &mut Judge) -> Verdict {
    for message_len in MESSAGE_MAX - 1..=MESSAGE_MAX + 1 {
        for tag_bits in [1, 9, 32] {
            for (trial, result) in judge.grain128a_calls(tag_bits, message_len) {
                let expected = match message_len > MESSAGE_MAX {
                    true => trial.refusal(4),
                    false => trial.success(&result),
                };
                judge.expect_grain128a(&trial, &expected)?;
            }
        }
    }
    Ok(())
}

/// Sealed inputs of random bytes, at both ends of what is legal for the tag.
pub fn sealed_inputs(judge: &mut Judge) -> Verdict {
    for tag_bits in BORDERS {
        let tag_size = grain128a_tag_size(tag_bits);
        let longest = MESSAGE_MAX + tag_size;
        for length in (0..=9).chain(longest - 1..=longest + 1) {
            let opening = judge.grain128a(Call::Open, tag_bits, length);
            if length < tag_size {
                judge.expect_grain128a(&opening, &opening.refusal(5))?;
            } else if length > longest {
                judge.expect_grain128a(&opening, &opening.refusal(4))?;
            } else {
                judge.agree_on_grain128a(&opening)?;
            }
        }
    }
    Ok(())
}

pub fn keys_and_nonces(judge: &mut Judge) -> Verdict {
    for key_len in [0, 15, 16, 17, 32] {
        for nonce_len in [0, 1, 11, 12, 13, 16] {
            for (mut trial, result) in judge.grain128a_calls(13, 7) {
                trial.key.resize(key_len, 0);
                trial.nonce.resize(nonce_len, 0);
                let expected = match (key_len, nonce_len) {
                    (KEY_SIZE, NONCE_SIZE) => trial.success(&result),
                    (KEY_SIZE, _) => trial.refusal(2),
                    _ => trial.refusal(1),
                };
                judge.expect_grain128a(&trial, &expected)?;
            }
        }
    }
    Ok(())
}

/// Random sizes, with outputs from a few bytes too short to some bytes longer than needed.
pub fn random(judge: &mut Judge) -> Verdict {
    for _ in 0..RANDOM_TRIALS {
        let (tag_bits, message_len) = (judge.tag_bits(), judge.random.below(300));
        for (trial, result) in judge.grain128a_calls(tag_bits, message_len) {
            let room = (result.len() + judge.random.below(16)).saturating_sub(4);
            let trial = Trial {
                lent: judge.random.bytes(room),
                ..trial
            };
            let expected = match room < result.len() {
                true => trial.refusal(6),
                false => trial.success(&result),
            };
            judge.expect_grain128a(&trial, &expected)?;
        }
    }
    Ok(())
}

pub fn random_long(judge: &mut Judge) -> Verdict {
    for _ in 0..LONG_TRIALS {
        let (tag_bits, message_len) = (judge.tag_bits(), judge.random.below(MESSAGE_MAX + 1));
        for (trial, result) in judge.grain128a_calls(tag_bits, message_len) {
            judge.expect_grain128a(&trial, &trial.success(&result))?;
        }
    }
    Ok(())
}
