//! The blank key, 16 zero bytes, and keys that are near it.

use crate::judge::{Judge, Verdict};
use crate::trial::Trial;
use tikhoplav::archive::Call;
use tikhoplav::sizes::{KEY_SIZE, TAG_SIZE};

const BLANK: [u8; KEY_SIZE] = [0; KEY_SIZE];
const RANDOM_TRIALS: usize = 200;

/// The blank key is refused with any nonce, AD and message, also where the sealed input is what the
/// machine makes under it.
pub fn blank(judge: &mut Judge) -> Verdict {
    for _ in 0..RANDOM_TRIALS {
        let (ad_len, message_len) = (judge.random.below(200), judge.random.below(200));
        let sealing = Trial {
            key: BLANK.to_vec(),
            ..judge.sealing(ad_len, message_len)
        };
        judge.expect(&sealing, &sealing.refusal(15))?;
        let opening = Trial {
            call: Call::Open,
            data: model::payload(
                sealing.known_edition(),
                &sealing.key,
                &sealing.nonce,
                &model::coded_length(ad_len),
                &sealing.ad,
                &sealing.data,
            ),
            ..sealing
        };
        judge.expect(&opening, &opening.refusal(15))?;
    }
    Ok(())
}

/// Zeros of every length.
pub fn zeros(judge: &mut Judge) -> Verdict {
    for key_len in 0..=4 * KEY_SIZE {
        let number = if key_len == KEY_SIZE { 15 } else { 1 };
        for call in [Call::Seal, Call::Open] {
            let trial = Trial {
                call,
                key: vec![0; key_len],
                ..judge.sealing(3, TAG_SIZE)
            };
            judge.expect(&trial, &trial.refusal(number))?;
        }
    }
    Ok(())
}

/// Keys with one byte that is not zero, at each place; all 128 keys with a single bit are among them.
pub fn nearly_blank(judge: &mut Judge) -> Verdict {
    for place in 0..KEY_SIZE {
        for byte in 1..=u8::MAX {
            let mut key = BLANK.to_vec();
            key[place] = byte;
            let sealing = Trial {
                key,
                ..judge.sealing(2, 5)
            };
            let opening = judge.opening(&sealing);
            judge.expect(&sealing, &sealing.success(&opening.data))?;
            judge.expect(&opening, &opening.success(&sealing.data))?;
        }
    }
    Ok(())
}
