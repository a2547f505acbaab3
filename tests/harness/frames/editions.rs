//! Numbers that are no edition's, and frames of the other edition.

use super::trial::FrameTrial;
use super::LONGEST;
use crate::judge::{Judge, Verdict};

const UNKNOWN: [u32; 9] = [
    0,
    3,
    257,
    258,
    65537,
    1 << 31,
    (1 << 31) + 1,
    u32::MAX - 1,
    u32::MAX,
];

/// Refused before all else: with everything in order, and with everything wrong that can be.
pub fn unknown(judge: &mut Judge) -> Verdict {
    for edition in UNKNOWN {
        for message_len in 0..=LONGEST {
            let making = judge.making(message_len);
            for trial in [judge.reading(&making, message_len), making] {
                let trial = FrameTrial { edition, ..trial };
                judge.expect_frame(&trial, &trial.refusal(23))?;
                let wrong = FrameTrial {
                    key: vec![0; 15],
                    nonce: Vec::new(),
                    identifier: u32::MAX,
                    code: 16,
                    data: vec![0xff; 70],
                    lent: judge.random.bytes(3),
                    ..trial
                };
                judge.expect_frame(&wrong, &wrong.refusal(23))?;
            }
        }
    }
    Ok(())
}

/// What this edition makes the other refuses, with room for the message.
pub fn crossed(judge: &mut Judge) -> Verdict {
    for message_len in 0..=LONGEST {
        let making = judge.making(message_len);
        let trial = FrameTrial {
            edition: if judge.edition == 1 { 2 } else { 1 },
            ..judge.reading(&making, message_len)
        };
        judge.expect_frame(&trial, &trial.refusal(7))?;
    }
    Ok(())
}
