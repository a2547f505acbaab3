//! Makings of messages of every length.

use super::trial::FrameTrial;
use super::LONGEST;
use crate::judge::{Judge, Verdict};

const RANDOM_TRIALS: usize = 300;

/// Every output from none at all to a few bytes longer than the field.
pub fn rooms(judge: &mut Judge) -> Verdict {
    for message_len in 0..=LONGEST {
        let making = judge.making(message_len);
        let field = making.field();
        for room in 0..=field.len() + 3 {
            let trial = FrameTrial {
                lent: judge.random.bytes(room),
                ..making.clone()
            };
            let expected = match room < field.len() {
                true => trial.refusal(6),
                false => trial.success(&field),
            };
            judge.expect_frame(&trial, &expected)?;
        }
    }
    Ok(())
}

/// Whatever the output.
pub fn too_long(judge: &mut Judge) -> Verdict {
    for message_len in (LONGEST + 1..=70).chain([255, 256, 300, 256 + LONGEST, 65536]) {
        for room in (0..=67).chain([message_len + 8, message_len + 9, message_len + 40]) {
            let trial = FrameTrial {
                data: judge.random.bytes(message_len),
                lent: judge.random.bytes(room),
                ..judge.making(LONGEST)
            };
            judge.expect_frame(&trial, &trial.refusal(9))?;
        }
    }
    Ok(())
}

/// Made and read again, each with some room more or a byte too little.
pub fn round_trips(judge: &mut Judge) -> Verdict {
    for _ in 0..RANDOM_TRIALS {
        let message_len = judge.random.below(LONGEST + 1);
        let making = judge.making(message_len);
        let reading = judge.reading(&making, message_len);
        let (field, message) = (reading.data.clone(), making.data.clone());
        for (mut trial, result) in [(making, field), (reading, message)] {
            let room = (result.len() + judge.random.below(9)).saturating_sub(1);
            trial.lent = judge.random.bytes(room);
            let expected = match room < result.len() {
                true => trial.refusal(6),
                false => trial.success(&result),
            };
            judge.expect_frame(&trial, &expected)?;
        }
    }
    Ok(())
}
