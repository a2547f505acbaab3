//! Genuine payloads, opened under another key or nonce, or cut and lengthened.

use super::trial::{Call, Trial};
use super::BORDERS;
use crate::judge::{Judge, Verdict};

/// Each bit changed, but the nonce's first: with a tag of 32 bits that is refused, and with shorter
/// ones the model tells.
pub fn keys_and_nonces(judge: &mut Judge) -> Verdict {
    for tag_bits in [1, 8, 32] {
        let sealing = judge.grain128a(Call::Seal, tag_bits, 20);
        let opening = judge.grain128a_opening(&sealing);
        for bit in 0..128 {
            let mut damaged = opening.clone();
            damaged.key[bit / 8] ^= 0x80 >> (bit % 8);
            refused(judge, &damaged)?;
        }
        for bit in 1..96 {
            let mut damaged = opening.clone();
            damaged.nonce[bit / 8] ^= 0x80 >> (bit % 8);
            refused(judge, &damaged)?;
        }
    }
    Ok(())
}

fn refused(judge: &mut Judge, damaged: &Trial) -> Verdict {
    match damaged.tag_bits {
        32 => judge.expect_grain128a(damaged, &damaged.refusal(7)),
        _ => judge.agree_on_grain128a(damaged),
    }
}

/// A byte more or less, at either end of the sealed input.
pub fn lengths(judge: &mut Judge) -> Verdict {
    for tag_bits in BORDERS {
        for message_len in 0..=20 {
            let sealing = judge.grain128a(Call::Seal, tag_bits, message_len);
            let opening = judge.grain128a_opening(&sealing);
            for change in [grow_front, grow_back, shrink_front, shrink_back] {
                let mut damaged = opening.clone();
                change(&mut damaged.data);
                damaged.lent = judge.random.bytes(message_len + 1);
                match damaged.data.len() < damaged.tag_size() {
                    true => judge.expect_grain128a(&damaged, &damaged.refusal(5))?,
                    false => refused(judge, &damaged)?,
                }
            }
        }
    }
    Ok(())
}

fn grow_front(bytes: &mut Vec<u8>) {
    bytes.insert(0, 0);
}

fn grow_back(bytes: &mut Vec<u8>) {
    bytes.push(0);
}

fn shrink_front(bytes: &mut Vec<u8>) {
    bytes.remove(0);
}

fn shrink_back(bytes: &mut Vec<u8>) {
    bytes.pop();
}
