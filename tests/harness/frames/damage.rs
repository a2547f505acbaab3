//! Genuine frames, read with something in the data field changed.

use super::{code_for, LONGEST};
use crate::judge::{Judge, Verdict};

/// Both ends of some codes.
const MESSAGE_LENS: [usize; 7] = [0, 3, 4, 23, 39, 40, 55];

/// Every bit, and all bytes with the same.
pub fn filler(judge: &mut Judge) -> Verdict {
    for message_len in 0..=LONGEST {
        let making = judge.making(message_len);
        let reading = judge.reading(&making, message_len);
        let begin = message_len + 9;
        for bit in 8 * begin..8 * reading.data.len() {
            let mut trial = reading.clone();
            trial.data[bit / 8] ^= 0x80 >> (bit % 8);
            judge.expect_frame(&trial, &trial.refusal(12))?;
        }
        if begin == reading.data.len() {
            continue;
        }
        for bit in 0..8 {
            let mut trial = reading.clone();
            trial.data[begin..].fill(0x80 >> bit);
            judge.expect_frame(&trial, &trial.refusal(12))?;
        }
    }
    Ok(())
}

/// Each of the 256 values in the place of M, with much room and with room for the message alone.
pub fn message_length(judge: &mut Judge) -> Verdict {
    for message_len in 0..=LONGEST {
        let making = judge.making(message_len);
        for room in [LONGEST + 5, message_len] {
            let reading = judge.reading(&making, room);
            for value in 0..=u8::MAX {
                let mut trial = reading.clone();
                trial.data[0] = value;
                let value = usize::from(value);
                if value > LONGEST || code_for(value) != making.code {
                    judge.expect_frame(&trial, &trial.refusal(11))?;
                } else if value > message_len {
                    let number = if value > room { 6 } else { 7 };
                    judge.expect_frame(&trial, &trial.refusal(number))?;
                } else {
                    judge.agree_on_frame(&trial)?;
                }
            }
        }
    }
    Ok(())
}

/// Every bit of ciphertext and tag.
pub fn sealed_part(judge: &mut Judge) -> Verdict {
    for message_len in MESSAGE_LENS {
        let making = judge.making(message_len);
        let reading = judge.reading(&making, message_len);
        for bit in 8..8 * (message_len + 9) {
            let mut trial = reading.clone();
            trial.data[bit / 8] ^= 0x80 >> (bit % 8);
            judge.expect_frame(&trial, &trial.refusal(7))?;
        }
    }
    Ok(())
}

/// Every bit of key and nonce.
pub fn key_and_nonce(judge: &mut Judge) -> Verdict {
    for message_len in MESSAGE_LENS {
        let making = judge.making(message_len);
        let reading = judge.reading(&making, message_len);
        for bit in 0..8 * (reading.key.len() + reading.nonce.len()) {
            let mut trial = reading.clone();
            let place = bit / 8;
            let byte = match place.checked_sub(trial.key.len()) {
                None => &mut trial.key[place],
                Some(place) => &mut trial.nonce[place],
            };
            *byte ^= 0x80 >> (bit % 8);
            judge.expect_frame(&trial, &trial.refusal(7))?;
        }
    }
    Ok(())
}
