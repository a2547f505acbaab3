//! Outputs that are too short, just long enough, and longer.

use crate::judge::{Judge, Verdict};
use tikhoplav::sizes::MESSAGE_MAX;

/// Every room up to well above what is needed.
pub fn every_room(judge: &mut Judge) -> Verdict {
    for message_len in 0..=40 {
        let rooms: Vec<usize> = (0..=message_len + 20).collect();
        with_rooms(judge, message_len, &rooms)?;
    }
    Ok(())
}

pub fn long(judge: &mut Judge) -> Verdict {
    for message_len in [255, 256, 1000, 4096, MESSAGE_MAX - 1, MESSAGE_MAX] {
        let short = [0, 1, message_len / 2, message_len - 2, message_len - 1];
        with_rooms(judge, message_len, &short)?;
        let enough = [message_len, message_len + 1, message_len + 4096, 65536];
        with_rooms(judge, message_len, &enough)?;
    }
    Ok(())
}

fn with_rooms(judge: &mut Judge, message_len: usize, rooms: &[usize]) -> Verdict {
    let mut trial = judge.grainv1(message_len);
    for &room in rooms {
        trial.lent = judge.random.bytes(room);
        match room < message_len {
            true => judge.expect_grainv1(&trial, &trial.refusal(6))?,
            false => judge.accepts_grainv1(&trial)?,
        }
    }
    Ok(())
}
