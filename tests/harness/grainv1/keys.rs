//! Keys and nonces: blank ones, which are taken, and each of their bits.

use super::trial::Trial;
use crate::judge::{Judge, Verdict};
use tikhoplav::sizes::{GRAINV1_KEY_SIZE, GRAINV1_NONCE_SIZE};

const RANDOM_TRIALS: usize = 300;
/// More bits of keystream than a key has.
const MESSAGE_LEN: usize = 16;

/// With any nonce, a blank one among them, and any message.
pub fn blank(judge: &mut Judge) -> Verdict {
    for _ in 0..RANDOM_TRIALS {
        let message_len = judge.random.below(200);
        let mut trial = Trial {
            key: vec![0; GRAINV1_KEY_SIZE],
            ..judge.grainv1(message_len)
        };
        judge.accepts_grainv1(&trial)?;
        trial.nonce.fill(0);
        judge.accepts_grainv1(&trial)?;
    }
    Ok(())
}

/// Zeros of every other length are a key of the wrong size.
pub fn zeros(judge: &mut Judge) -> Verdict {
    for key_len in (0..=64).filter(|&len| len != GRAINV1_KEY_SIZE) {
        let trial = Trial {
            key: vec![0; key_len],
            ..judge.grainv1(8)
        };
        judge.expect_grainv1(&trial, &trial.refusal(1))?;
    }
    Ok(())
}

/// Keys and nonces with one byte that is not zero, at each place; those with a single bit are among
/// them.
pub fn one_byte(judge: &mut Judge) -> Verdict {
    for byte in 1..=u8::MAX {
        for place in 0..GRAINV1_KEY_SIZE {
            let mut trial = judge.grainv1(5);
            trial.key.fill(0);
            trial.key[place] = byte;
            judge.accepts_grainv1(&trial)?;
        }
        for place in 0..GRAINV1_NONCE_SIZE {
            let mut trial = judge.grainv1(5);
            trial.nonce.fill(0);
            trial.nonce[place] = byte;
            judge.accepts_grainv1(&trial)?;
        }
    }
    Ok(())
}

/// With any one bit of the key or of the nonce changed the keystream is another.
pub fn every_bit(judge: &mut Judge) -> Verdict {
    for _ in 0..8 {
        let trial = judge.grainv1(MESSAGE_LEN);
        let given = trial.by_archive().out;
        for bit in 0..8 * GRAINV1_KEY_SIZE {
            let mut other = trial.clone();
            other.key[bit / 8] ^= 0x80 >> (bit % 8);
            differs(judge, &other, &given)?;
        }
        for bit in 0..8 * GRAINV1_NONCE_SIZE {
            let mut other = trial.clone();
            other.nonce[bit / 8] ^= 0x80 >> (bit % 8);
            differs(judge, &other, &given)?;
        }
    }
    Ok(())
}

fn differs(judge: &mut Judge, other: &Trial, given: &[u8]) -> Verdict {
    judge.accepts_grainv1(other)?;
    judge.holds("another keystream", other.by_archive().out != given)
}
