//! The selftest's stored frames against the model.

use crate::judge::{Judge, Verdict};
use tikhoplav::hex;
use tikhoplav::sizes::{FRAME_MAX, KEY_SIZE, NONCE_SIZE};
use tikhoplav::vectors::{counting, FRAMED};

pub fn run(judge: &mut Judge) -> Verdict {
    for frame in &FRAMED {
        for (edition, field) in frame.by_edition() {
            let made = model::frames::make(
                Some(edition),
                &counting(KEY_SIZE),
                &counting(NONCE_SIZE),
                frame.identifier,
                &counting(frame.message_len),
                FRAME_MAX,
            );
            judge.holds(
                &format!("the model's frame of edition {edition} is {field}"),
                made.is_ok_and(|made| hex::encode(&made) == field),
            )?;
        }
    }
    Ok(())
}
