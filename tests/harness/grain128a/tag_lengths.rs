//! Tags of every length, numbers that are no tag's length, and the bits past a tag's length.

use super::trial::{Call, Trial};
use super::{registers, TAG_BITS};
use crate::judge::{Judge, Verdict};

const MESSAGE_LENS: [usize; 5] = [0, 1, 4, 33, 200];

/// The ciphertext is the same for every length, and the tag is the last bits of the one of 32.
pub fn every(judge: &mut Judge) -> Verdict {
    for message_len in MESSAGE_LENS {
        let longest = judge.grain128a(Call::Seal, 32, message_len);
        let payload = judge.grain128a_opening(&longest).data;
        let (ciphertext, tag) = payload.split_at(message_len);
        let tag = registers::read(tag);
        for tag_bits in TAG_BITS {
            let sealing = Trial {
                tag_bits,
                ..longest.clone()
            };
            let cut = registers::spelled(registers::cut(tag, tag_bits), tag_bits);
            let expected = [ciphertext, &cut].concat();
            judge.expect_grain128a(&sealing, &sealing.success(&expected))?;
            let opening = Trial {
                call: Call::Open,
                data: expected,
                ..sealing
            };
            judge.expect_grain128a(&opening, &opening.success(&longest.data))?;
        }
    }
    Ok(())
}

/// Around every power of two, so that a number cut to fewer bits is among them.
fn no_lengths() -> impl Iterator<Item = u32> {
    let powers = (5..32).flat_map(|k| [0, 1, 8, 32].map(move |low| (1 << k) + low));
    let others = [0, 33, 34, 40, 64, 65, u32::MAX - 7, u32::MAX - 1, u32::MAX];
    others.into_iter().chain(powers.filter(|&bits| bits > 32))
}

/// Refused before the sizes are looked at. Crypt is not told the number.
pub fn none(judge: &mut Judge) -> Verdict {
    for tag_bits in no_lengths() {
        for message_len in MESSAGE_LENS {
            for (trial, result) in judge.grain128a_calls(32, message_len) {
                let trial = Trial { tag_bits, ..trial };
                let expected = match trial.call {
                    Call::Crypt => trial.success(&result),
                    _ => trial.refusal(20),
                };
                judge.expect_grain128a(&trial, &expected)?;
            }
        }
    }
    Ok(())
}

/// Every set of them but the empty one, with the tag right and with a bit of it changed.
pub fn bits_past(judge: &mut Judge) -> Verdict {
    for message_len in [0, 3, 40] {
        for tag_bits in TAG_BITS.filter(|bits| bits % 8 != 0) {
            let sealing = judge.grain128a(Call::Seal, tag_bits, message_len);
            let opening = judge.grain128a_opening(&sealing);
            for past in 1..1_u8 << (8 - tag_bits % 8) {
                let mut refused = opening.clone();
                *last(&mut refused) |= past;
                judge.expect_grain128a(&refused, &refused.refusal(7))?;
                *last(&mut refused) ^= 0x80 >> ((tag_bits - 1) % 8);
                judge.expect_grain128a(&refused, &refused.refusal(7))?;
            }
            judge.expect_grain128a(&opening, &opening.success(&sealing.data))?;
        }
    }
    Ok(())
}

fn last(trial: &mut Trial) -> &mut u8 {
    trial.data.last_mut().expect("a tag")
}

/// Payloads that were sealed with a tag of another length: what comes of them is up to chance, and
/// the same for archive and model.
pub fn others(judge: &mut Judge) -> Verdict {
    for sealed_with in TAG_BITS {
        let sealing = judge.grain128a(Call::Seal, sealed_with, 9);
        let opening = judge.grain128a_opening(&sealing);
        for tag_bits in TAG_BITS {
            let room = 13;
            let opening = Trial {
                tag_bits,
                lent: judge.random.bytes(room),
                ..opening.clone()
            };
            judge.agree_on_grain128a(&opening)?;
        }
    }
    Ok(())
}
