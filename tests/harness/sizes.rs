//! Inputs of every small size, of the sizes at the limits, and of random sizes.

use crate::judge::{Judge, Verdict};
use crate::trial::Trial;
use tikhoplav::archive::Call;
use tikhoplav::sizes::{AD_MAX, KEY_SIZE, MESSAGE_MAX, NONCE_SIZE, SEALED_MAX, TAG_SIZE};

const SMALL: usize = 200;
const RANDOM_TRIALS: usize = 10_000;
const LONG_TRIALS: usize = 25;

pub fn small(judge: &mut Judge) -> Verdict {
    for ad_len in 0..=SMALL {
        for message_len in 0..=SMALL {
            for (trial, result) in judge.both_calls(ad_len, message_len) {
                judge.expect(&trial, &trial.success(&result))?;
            }
        }
    }
    Ok(())
}

pub fn limits(judge: &mut Judge) -> Verdict {
    for ad_len in [0, 1, 127, 128, 255, 256, AD_MAX - 1, AD_MAX, AD_MAX + 1] {
        for message_len in [0, 1, MESSAGE_MAX - 1, MESSAGE_MAX, MESSAGE_MAX + 1] {
            for (trial, result) in judge.both_calls(ad_len, message_len) {
                let expected = match (ad_len, message_len) {
                    (0..=AD_MAX, 0..=MESSAGE_MAX) => trial.success(&result),
                    (0..=AD_MAX, _) => trial.refusal(4),
                    _ => trial.refusal(3),
                };
                judge.expect(&trial, &expected)?;
            }
        }
    }
    Ok(())
}

/// Sealed inputs of random bytes, at both ends of what is legal.
pub fn sealed_inputs(judge: &mut Judge) -> Verdict {
    for length in (0..=9).chain(SEALED_MAX - 1..=SEALED_MAX + 1) {
        let opening = Trial {
            call: Call::Open,
            ..judge.sealing(3, length)
        };
        let number = match length {
            0..TAG_SIZE => 5,
            TAG_SIZE..=SEALED_MAX => 7,
            _ => 4,
        };
        judge.expect(&opening, &opening.refusal(number))?;
    }
    Ok(())
}

pub fn keys_and_nonces(judge: &mut Judge) -> Verdict {
    for key_len in [0, 15, 16, 17, 32] {
        for nonce_len in [0, 11, 12, 13, 16] {
            for (mut trial, result) in judge.both_calls(5, 7) {
                trial.key.resize(key_len, 0);
                trial.nonce.resize(nonce_len, 0);
                let expected = match (key_len, nonce_len) {
                    (KEY_SIZE, NONCE_SIZE) => trial.success(&result),
                    (KEY_SIZE, _) => trial.refusal(2),
                    _ => trial.refusal(1),
                };
                judge.expect(&trial, &expected)?;
            }
        }
    }
    Ok(())
}

/// Random sizes, with outputs from a few bytes too short to some bytes longer than needed.
pub fn random(judge: &mut Judge) -> Verdict {
    for _ in 0..RANDOM_TRIALS {
        let (ad_len, message_len) = (judge.random.below(300), judge.random.below(300));
        for (mut trial, result) in judge.both_calls(ad_len, message_len) {
            let room = (result.len() + judge.random.below(16)).saturating_sub(4);
            trial.lent = judge.random.bytes(room);
            let expected = match room < result.len() {
                true => trial.refusal(6),
                false => trial.success(&result),
            };
            judge.expect(&trial, &expected)?;
        }
    }
    Ok(())
}

/// Random sizes up to both limits.
pub fn random_long(judge: &mut Judge) -> Verdict {
    for _ in 0..LONG_TRIALS {
        let ad_len = judge.random.below(AD_MAX + 1);
        let message_len = judge.random.below(MESSAGE_MAX + 1);
        for (trial, result) in judge.both_calls(ad_len, message_len) {
            judge.expect(&trial, &trial.success(&result))?;
        }
    }
    Ok(())
}
