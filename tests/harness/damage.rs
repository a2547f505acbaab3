//! Genuine payloads, opened with something changed.

use crate::judge::{Judge, Verdict};
use crate::trial::Trial;
use tikhoplav::sizes::TAG_SIZE;

const RANDOM_TRIALS: usize = 2_000;

type Part = fn(&mut Trial) -> &mut Vec<u8>;

const KEY: Part = |opening| &mut opening.key;
const NONCE: Part = |opening| &mut opening.nonce;
const AD: Part = |opening| &mut opening.ad;
const SEALED: Part = |opening| &mut opening.data;

pub fn every_bit(judge: &mut Judge) -> Verdict {
    for (ad_len, message_len) in [(0, 0), (1, 1), (5, 8), (30, 40), (130, 17)] {
        let sealing = judge.sealing(ad_len, message_len);
        let mut opening = judge.opening(&sealing);
        for part in [KEY, NONCE, AD, SEALED] {
            for bit in 0..8 * part(&mut opening).len() {
                let mask = 0x80 >> (bit % 8);
                part(&mut opening)[bit / 8] ^= mask;
                judge.expect(&opening, &opening.refusal(7))?;
                part(&mut opening)[bit / 8] ^= mask;
            }
        }
    }
    Ok(())
}

/// Any number of a part's bits flipped, and at least one in its first byte.
pub fn random(judge: &mut Judge) -> Verdict {
    for _ in 0..RANDOM_TRIALS {
        let (ad_len, message_len) = (1 + judge.random.below(200), judge.random.below(200));
        let sealing = judge.sealing(ad_len, message_len);
        let mut opening = judge.opening(&sealing);
        let part = judge.random.pick(&[KEY, NONCE, AD, SEALED]);
        let bytes = part(&mut opening);
        let mut flips = judge.random.bytes(bytes.len());
        flips[0] = 1 + judge.random.below(255) as u8;
        bytes.iter_mut().zip(flips).for_each(|(b, flip)| *b ^= flip);
        judge.expect(&opening, &opening.refusal(7))?;
    }
    Ok(())
}

/// A byte more or less, at either end of the AD and of the sealed input.
pub fn lengths(judge: &mut Judge) -> Verdict {
    for ad_len in [1, 20, 127, 128, 129, 255, 256, 257] {
        for message_len in 0..=20 {
            let sealing = judge.sealing(ad_len, message_len);
            let opening = judge.opening(&sealing);
            for part in [AD, SEALED] {
                for change in [grow_front, grow_back, shrink_front, shrink_back] {
                    let mut damaged = opening.clone();
                    change(part(&mut damaged));
                    damaged.lent = judge.random.bytes(message_len + 1);
                    let number = if damaged.data.len() < TAG_SIZE { 5 } else { 7 };
                    judge.expect(&damaged, &damaged.refusal(number))?;
                }
            }
        }
    }
    Ok(())
}

fn grow_front(bytes: &mut Vec<u8>) {
    bytes.insert(0, 0);
}

fn grow_back(bytes: &mut Vec<u8>) {
    bytes.push(0);
}

fn shrink_front(bytes: &mut Vec<u8>) {
    bytes.remove(0);
}

fn shrink_back(bytes: &mut Vec<u8>) {
    bytes.pop();
}
