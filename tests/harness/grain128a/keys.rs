//! The blank key, 16 zero bytes, and keys that are near it.

use super::trial::{Call, Trial};
use super::CALLS;
use crate::judge::{Judge, Verdict};
use tikhoplav::sizes::KEY_SIZE;

const BLANK: [u8; KEY_SIZE] = [0; KEY_SIZE];
const RANDOM_TRIALS: usize = 200;

/// The blank key is refused with any nonce and message, also where the sealed input is what the
/// machine makes under it.
pub fn blank(judge: &mut Judge) -> Verdict {
    for _ in 0..RANDOM_TRIALS {
        let (tag_bits, message_len) = (judge.tag_bits(), judge.random.below(200));
        for call in [Call::Seal, Call::Crypt] {
            let trial = Trial {
                key: BLANK.to_vec(),
                ..judge.grain128a(call, tag_bits, message_len)
            };
            judge.expect_grain128a(&trial, &trial.refusal(15))?;
            if call == Call::Seal {
                let opening = judge.grain128a_opening(&trial);
                judge.expect_grain128a(&opening, &opening.refusal(15))?;
            }
        }
    }
    Ok(())
}

/// Zeros of every length.
pub fn zeros(judge: &mut Judge) -> Verdict {
    for key_len in 0..=4 * KEY_SIZE {
        let number = if key_len == KEY_SIZE { 15 } else { 1 };
        for call in CALLS {
            let trial = Trial {
                key: vec![0; key_len],
                ..judge.grain128a(call, 32, 8)
            };
            judge.expect_grain128a(&trial, &trial.refusal(number))?;
        }
    }
    Ok(())
}

/// Keys with one byte that is not zero, at each place; all 128 keys with a single bit are among them.
pub fn nearly_blank(judge: &mut Judge) -> Verdict {
    for place in 0..KEY_SIZE {
        for byte in 1..=u8::MAX {
            let mut key = BLANK.to_vec();
            key[place] = byte;
            let sealing = Trial {
                key: key.clone(),
                ..judge.grain128a(Call::Seal, 32, 5)
            };
            let opening = judge.grain128a_opening(&sealing);
            judge.expect_grain128a(&sealing, &sealing.success(&opening.data))?;
            judge.expect_grain128a(&opening, &opening.success(&sealing.data))?;
            let crypt = Trial {
                key,
                ..judge.grain128a(Call::Crypt, 32, 5)
            };
            judge.agree_on_grain128a(&crypt)?;
            judge.holds("crypt takes the key", crypt.by_archive().answer == 5)?;
        }
    }
    Ok(())
}
