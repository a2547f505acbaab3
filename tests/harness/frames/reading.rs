//! Readings of data fields with every M, under every length code.

use super::trial::{Call, FrameTrial};
use super::{code_for, LONGEST};
use crate::judge::{Judge, Verdict};

fn lengths() -> impl Iterator<Item = usize> {
    (0..=LONGEST + 1).chain([63, 64, 127, 128, 255])
}

fn codes() -> impl Iterator<Item = u32> {
    (0..=17).chain([u32::MAX])
}

/// Data of the coded length and a byte shorter and longer; over code 15, of the lengths around the
/// longest.
pub fn every_code(judge: &mut Judge) -> Verdict {
    for message_len in lengths() {
        for code in codes() {
            let coded = model::frames::coded_length(code);
            let around = coded.unwrap_or(64);
            for data_len in around.saturating_sub(1)..=around + 1 {
                let legal = coded == Ok(data_len);
                sealed_under(judge, message_len, code, data_len, legal)?;
                random(judge, message_len, code, data_len)?;
            }
        }
    }
    Ok(())
}

/// A frame that is in order, but that its code may not be the smallest for it, and its length not
/// the coded one: what doesn't fit is cut off.
fn sealed_under(
    judge: &mut Judge,
    message_len: usize,
    code: u32,
    data_len: usize,
    legal: bool,
) -> Verdict {
    let making = FrameTrial {
        code,
        data: judge.random.bytes(message_len),
        ..judge.making(0)
    };
    let mut data = making.front();
    data.resize(data_len, 0);
    let trial = FrameTrial {
        call: Call::Read,
        data,
        lent: judge.random.bytes(message_len),
        ..making.clone()
    };
    let smallest = message_len <= LONGEST && code == code_for(message_len);
    let expected = match (legal, smallest) {
        (false, _) => trial.refusal(10),
        (true, false) => trial.refusal(11),
        (true, true) => trial.success(&making.data),
    };
    judge.expect_frame(&trial, &expected)
}

/// Random bytes behind M, up to the end and up to the filler.
fn random(judge: &mut Judge, message_len: usize, code: u32, data_len: usize) -> Verdict {
    let mut trial = FrameTrial {
        call: Call::Read,
        code,
        data: judge.random.bytes(data_len),
        lent: judge.random.bytes(message_len),
        ..judge.making(0)
    };
    if let Some(first) = trial.data.first_mut() {
        *first = message_len as u8;
    }
    judge.agree_on_frame(&trial)?;
    trial.data.truncate(message_len + 9);
    trial.data.resize(data_len, 0);
    judge.agree_on_frame(&trial)
}

/// Codes and lengths that would be in order, were they cut to fewer bits.
pub fn cut_numbers(judge: &mut Judge) -> Verdict {
    for message_len in 0..=LONGEST {
        let making = judge.making(message_len);
        let reading = judge.reading(&making, message_len);
        for power in (4..32).map(|k| 1 << k) {
            let mut trial = reading.clone();
            trial.code += power;
            judge.expect_frame(&trial, &trial.refusal(10))?;
        }
        for more in [256, 65536] {
            let mut trial = reading.clone();
            trial.data.resize(reading.data.len() + more, 0);
            judge.expect_frame(&trial, &trial.refusal(10))?;
        }
    }
    Ok(())
}

/// Every output from none at all to a few bytes longer than the message.
pub fn rooms(judge: &mut Judge) -> Verdict {
    for message_len in 0..=LONGEST {
        let making = judge.making(message_len);
        for room in 0..=message_len + 3 {
            let trial = judge.reading(&making, room);
            let expected = match room < message_len {
                true => trial.refusal(6),
                false => trial.success(&making.data),
            };
            judge.expect_frame(&trial, &expected)?;
        }
    }
    Ok(())
}
