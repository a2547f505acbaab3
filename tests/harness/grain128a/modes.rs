//! Nonces of either mode, in each call.

use super::trial::{Call, Trial};
use crate::judge::{Judge, Verdict};

const RANDOM_TRIALS: usize = 200;

/// The top bit of a nonce's first byte is its mode.
fn is_of_mode(call: Call, first: u8) -> bool {
    (first >= 0x80) == (call != Call::Crypt)
}

/// A nonce of the wrong mode is refused, whatever its other bits are; one of the right mode is taken.
pub fn first_bytes(judge: &mut Judge) -> Verdict {
    for first in 0..=u8::MAX {
        let mut sealing = judge.grain128a(Call::Seal, 32, 6);
        sealing.nonce[0] = first;
        let opening = judge.grain128a_opening(&sealing);
        let crypt = Trial {
            call: Call::Crypt,
            ..sealing.clone()
        };
        for trial in [sealing, opening, crypt] {
            if is_of_mode(trial.call, first) {
                judge.agree_on_grain128a(&trial)?;
                let taken = trial.by_archive().answer >= 6;
                judge.holds("a nonce of the mode is taken", taken)?;
            } else {
                judge.expect_grain128a(&trial, &trial.refusal(19))?;
            }
        }
    }
    Ok(())
}

/// The right nonce but for its first bit, with the sealed input that the machine makes under it.
pub fn others(judge: &mut Judge) -> Verdict {
    for _ in 0..RANDOM_TRIALS {
        let (tag_bits, message_len) = (judge.tag_bits(), judge.random.below(100));
        for (mut trial, _) in judge.grain128a_calls(tag_bits, message_len) {
            trial.nonce[0] ^= 0x80;
            judge.expect_grain128a(&trial, &trial.refusal(19))?;
        }
        let mut sealing = judge.grain128a(Call::Seal, tag_bits, message_len);
        sealing.nonce[0] ^= 0x80;
        let opening = judge.grain128a_opening(&sealing);
        judge.expect_grain128a(&opening, &opening.refusal(19))?;
    }
    Ok(())
}
