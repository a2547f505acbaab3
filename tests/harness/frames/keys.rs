//! The blank key, 16 zero bytes, and keys that are near it.

use super::trial::FrameTrial;
use super::LONGEST;
use crate::judge::{Judge, Verdict};
use tikhoplav::sizes::KEY_SIZE;

/// Refused with any message, also where the field is what the machine makes under it.
pub fn blank(judge: &mut Judge) -> Verdict {
    for message_len in 0..=LONGEST {
        let making = FrameTrial {
            key: vec![0; KEY_SIZE],
            ..judge.making(message_len)
        };
        let reading = judge.reading(&making, message_len);
        judge.expect_frame(&making, &making.refusal(15))?;
        judge.expect_frame(&reading, &reading.refusal(15))?;
    }
    Ok(())
}

/// All 128 keys with a single bit.
pub fn nearly_blank(judge: &mut Judge) -> Verdict {
    for bit in 0..8 * KEY_SIZE {
        let mut key = vec![0; KEY_SIZE];
        key[bit / 8] = 0x80 >> (bit % 8);
        let making = FrameTrial {
            key,
            ..judge.making(5)
        };
        let reading = judge.reading(&making, 5);
        judge.expect_frame(&making, &making.success(&reading.data))?;
        judge.expect_frame(&reading, &reading.success(&making.data))?;
    }
    Ok(())
}
