//! Where a signal lies in its message.

use super::judge::WIDE;
use crate::judge::{Judge, Verdict};
use tikhoplav::signals::Signal;

const LONGEST: usize = 9;

/// A signal whose value is its raw number.
pub fn plain(start: u32, width: u32, is_signed: u32) -> Signal {
    Signal {
        start,
        width,
        is_signed,
        scale: 1.0,
        offset: 0.0,
        low: WIDE.0,
        high: WIDE.1,
    }
}

/// Every start up to the end of the message and some way behind it, with every width and some that
/// are none.
pub fn every(judge: &mut Judge) -> Verdict {
    for len in 0..=LONGEST {
        let bits = 8 * len as u32;
        let random = [judge.random.bytes(len), judge.random.bytes(len)];
        for message in [vec![0; len], vec![0xff; len]].iter().chain(&random) {
            for start in 0..=bits + 40 {
                for width in (0..=40).chain([64, 256, 257, 1 << 31]) {
                    let inside = (1..=32).contains(&width) && start + width <= bits;
                    for is_signed in [0, 1] {
                        let signal = plain(start, width, is_signed);
                        if inside {
                            judge.agree_on_signal(message, &signal)?;
                        } else {
                            judge.refuses_signal(message, &signal, 21)?;
                        }
                    }
                }
            }
        }
    }
    Ok(())
}

/// Far behind every message, some such that start and width add up to less than 2^32 only where the
/// sum is cut.
pub fn far(judge: &mut Judge) -> Verdict {
    let near_most = || (0..80).map(|less| u32::MAX - less);
    let powers = || (7..u32::BITS).flat_map(|bit| [(1 << bit) - 1, 1 << bit, (1 << bit) + 1]);
    for len in [0, 1, 4, 8, 9, 15] {
        let message = judge.random.bytes(len);
        for start in near_most().chain(powers()) {
            for width in (0..=40).chain(near_most()).chain(powers()) {
                judge.refuses_signal(&message, &plain(start, width, 0), 21)?;
            }
        }
        for width in near_most().chain(powers()) {
            for start in 0..=64 {
                judge.refuses_signal(&message, &plain(start, width, 1), 21)?;
            }
        }
    }
    Ok(())
}

/// A message of 2^29 bytes and a few more: all starts lie in it. Of its pages only the last is
/// touched.
pub fn in_long(judge: &mut Judge) -> Verdict {
    const MORE: usize = 5;
    let mut message = vec![0; (1 << 29) + MORE];
    let end = message.len();
    for (byte, random) in message[end - 16..].iter_mut().zip(judge.random.bytes(16)) {
        *byte = random;
    }
    for start in (0..50).map(|less| u32::MAX - less) {
        for width in 1..=32 {
            for is_signed in [0, 1] {
                judge.agree_on_signal(&message, &plain(start, width, is_signed))?;
                let bits = u64::from(start) + u64::from(width);
                let cut = usize::try_from(bits.div_ceil(8)).expect("a length") - 1;
                judge.refuses_signal(&message[..cut], &plain(start, width, is_signed), 21)?;
            }
        }
    }
    Ok(())
}
