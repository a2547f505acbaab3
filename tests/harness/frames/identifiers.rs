//! Identifiers at the borders of 11 and 29 bits, and beyond.

use super::trial::FrameTrial;
use crate::judge::{Judge, Verdict};

const LARGEST: u32 = (1 << 29) - 1;

const IDENTIFIERS: [u32; 12] = [
    0,
    1,
    (1 << 11) - 1,
    1 << 11,
    (1 << 11) + 1,
    LARGEST,
    1 << 29,
    (1 << 29) + 1,
    1 << 30,
    1 << 31,
    u32::MAX - 1,
    u32::MAX,
];

const MESSAGE_LENS: [usize; 4] = [0, 3, 20, 55];

/// What is read is what would be in order under the identifier, also where that is too large.
pub fn borders(judge: &mut Judge) -> Verdict {
    for message_len in MESSAGE_LENS {
        for identifier in IDENTIFIERS {
            let making = FrameTrial {
                identifier,
                ..judge.making(message_len)
            };
            let reading = judge.reading(&making, message_len);
            let results = [(&making, &reading.data), (&reading, &making.data)];
            for (trial, result) in results {
                let expected = match identifier > LARGEST {
                    true => trial.refusal(8),
                    false => trial.success(result),
                };
                judge.expect_frame(trial, &expected)?;
            }
        }
    }
    Ok(())
}

/// A frame under another identifier: with each bit flipped, and with the bytes or the bits turned.
pub fn others(judge: &mut Judge) -> Verdict {
    for message_len in MESSAGE_LENS {
        let making = judge.making(message_len);
        let identifier = making.identifier;
        let turned = [identifier.swap_bytes(), identifier.reverse_bits()];
        let flipped = (0..32).map(|bit| identifier ^ 1 << bit);
        for other in flipped.chain(turned).filter(|&other| other != identifier) {
            let trial = FrameTrial {
                identifier: other,
                ..judge.reading(&making, message_len)
            };
            let number = if other > LARGEST { 8 } else { 7 };
            judge.expect_frame(&trial, &trial.refusal(number))?;
        }
    }
    Ok(())
}
