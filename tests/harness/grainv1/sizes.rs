//! Inputs of every small size, of the sizes at the limits, and of random sizes.

use super::trial::Trial;
use crate::judge::{Judge, Verdict};
use tikhoplav::sizes::{GRAINV1_KEY_SIZE, GRAINV1_NONCE_SIZE, MESSAGE_MAX};

const SMALL: usize = 400;
const RANDOM_TRIALS: usize = 5_000;
const LONG_TRIALS: usize = 40;

pub fn small(judge: &mut Judge) -> Verdict {
    for message_len in 0..=SMALL {
        for _ in 0..4 {
            let trial = judge.grainv1(message_len);
            judge.accepts_grainv1(&trial)?;
        }
    }
    Ok(())
}

/// With all the room that is needed, and with none.
pub fn limits(judge: &mut Judge) -> Verdict {
    for message_len in [MESSAGE_MAX - 1, MESSAGE_MAX] {
        let trial = judge.grainv1(message_len);
        judge.accepts_grainv1(&trial)?;
        without_room(judge, trial, 6)?;
    }
    for message_len in [MESSAGE_MAX + 1, 65535, 65536, 65537, 2 * MESSAGE_MAX] {
        let trial = judge.grainv1(message_len);
        judge.expect_grainv1(&trial, &trial.refusal(4))?;
        without_room(judge, trial, 4)?;
    }
    Ok(())
}

fn without_room(judge: &mut Judge, trial: Trial, number: u8) -> Verdict {
    let trial = Trial {
        lent: Vec::new(),
        ..trial
    };
    judge.expect_grainv1(&trial, &trial.refusal(number))
}

/// Every size up to four times the right one, and those that differ from it by a power of two.
fn around(right: usize) -> impl Iterator<Item = usize> {
    let powers = (6..17).map(move |power| right + (1 << power));
    (0..=4 * right).chain(powers)
}

pub fn keys(judge: &mut Judge) -> Verdict {
    for key_len in around(GRAINV1_KEY_SIZE) {
        let trial = Trial {
            key: judge.random.bytes(key_len),
            ..judge.grainv1(7)
        };
        match key_len {
            GRAINV1_KEY_SIZE => judge.accepts_grainv1(&trial)?,
            _ => judge.expect_grainv1(&trial, &trial.refusal(1))?,
        }
    }
    Ok(())
}

pub fn nonces(judge: &mut Judge) -> Verdict {
    for nonce_len in around(GRAINV1_NONCE_SIZE) {
        let trial = Trial {
            nonce: judge.random.bytes(nonce_len),
            ..judge.grainv1(7)
        };
        match nonce_len {
            GRAINV1_NONCE_SIZE => judge.accepts_grainv1(&trial)?,
            _ => judge.expect_grainv1(&trial, &trial.refusal(2))?,
        }
    }
    Ok(())
}

/// Outputs from a few bytes too short to some bytes longer than needed.
pub fn random(judge: &mut Judge) -> Verdict {
    for _ in 0..RANDOM_TRIALS {
        let message_len = judge.random.below(400);
        let room = (message_len + judge.random.below(16)).saturating_sub(4);
        let trial = Trial {
            lent: judge.random.bytes(room),
            ..judge.grainv1(message_len)
        };
        match room < message_len {
            true => judge.expect_grainv1(&trial, &trial.refusal(6))?,
            false => judge.accepts_grainv1(&trial)?,
        }
    }
    Ok(())
}

pub fn random_long(judge: &mut Judge) -> Verdict {
    for _ in 0..LONG_TRIALS {
        let message_len = judge.random.below(MESSAGE_MAX + 1);
        let trial = judge.grainv1(message_len);
        judge.accepts_grainv1(&trial)?;
    }
    Ok(())
}
