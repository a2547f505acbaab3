//! Random captures with bytes changed, whatever they are.

use crate::judge::{Judge, Verdict};
use crate::random::Random;
use model::capture_writer::write;

const RANDOM_TRIALS: usize = 1000;
const DAMAGES: usize = 100;

/// Cut at every byte, lengthened, and with bytes changed, inserted, removed and exchanged.
pub fn damaged(judge: &mut Judge) -> Verdict {
    for trial in 0..RANDOM_TRIALS {
        let depth = if trial % 2 == 0 { 6 } else { 8 };
        let capture = write(&judge.random.items(depth, 600)).bytes;
        for len in 0..capture.len() {
            judge.expect_capture(&capture[..len], &Err(16))?;
        }
        for more in [1, 2, 8, 100] {
            let longer = [&capture[..], &judge.random.bytes(more)].concat();
            judge.expect_capture(&longer, &Err(16))?;
        }
        for _ in 0..DAMAGES {
            let mut damaged = capture.clone();
            for _ in 0..=judge.random.below(3) {
                damage(&mut judge.random, &mut damaged);
            }
            judge.agree_on_capture(&damaged)?;
        }
    }
    Ok(())
}

fn damage(random: &mut Random, capture: &mut Vec<u8>) {
    let place = random.below(capture.len().max(1));
    let byte = random.pick(&[0, 1, 2, 8, 16, 17, 0x20, 0xff]);
    match random.below(6) {
        _ if capture.is_empty() => capture.push(byte),
        0 => capture[place] = byte,
        1 => capture[place] = capture[place].wrapping_add(1),
        2 => capture[place] ^= 1 << random.below(8),
        3 => capture.insert(place, byte),
        4 => {
            capture.remove(place);
        }
        _ => {
            let other = random.below(capture.len());
            capture.swap(place, other);
        }
    }
}
