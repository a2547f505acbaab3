//! The place is judged before the numbers, and both before anything is written.

use super::places::plain;
use crate::judge::{Judge, Verdict};
use tikhoplav::signals::Signal;

const LEN: usize = 5;
const BITS: u32 = 8 * LEN as u32;

const WRONG_PLACES: [(u32, u32); 9] = [
    (0, 0),
    (0, 33),
    (BITS, 0),
    (BITS, 1),
    (BITS - 7, 8),
    (BITS - 31, 32),
    (u32::MAX, 1),
    (u32::MAX - 7, 8),
    (0, u32::MAX),
];

const PLACES: [(u32, u32); 4] = [(0, 1), (0, 32), (BITS - 32, 32), (BITS - 1, 1)];

/// No finite numbers; the last two are NaNs with a sign, and with other bits.
const NOT_FINITE: [u64; 5] = [
    0x7ff0_0000_0000_0000,
    0xfff0_0000_0000_0000,
    0x7ff8_0000_0000_0000,
    0xffff_ffff_ffff_ffff,
    0x7ff0_0000_0000_0001,
];

type Change = Box<dyn Fn(&mut Signal)>;

/// Each makes one of the numbers not finite, or the limits cross.
fn faults() -> Vec<Change> {
    let mut faults: Vec<Change> = Vec::new();
    for number in NOT_FINITE.map(f64::from_bits) {
        faults.push(Box::new(move |signal| signal.scale = number));
        faults.push(Box::new(move |signal| signal.offset = number));
        faults.push(Box::new(move |signal| signal.low = number));
        faults.push(Box::new(move |signal| signal.high = number));
    }
    for (low, high) in [(1.0, 1.0 - f64::EPSILON), (5e-324, 0.0), (2.0, -3.0)] {
        faults.push(Box::new(move |signal| {
            (signal.low, signal.high) = (low, high);
        }));
    }
    faults
}

/// Every fault of the numbers, and every two, at wrong places and at others.
pub fn run(judge: &mut Judge) -> Verdict {
    let message = judge.random.bytes(LEN);
    for place in WRONG_PLACES {
        faulty(judge, &message, place, 21)?;
        judge.refuses_signal(&message, &plain(place.0, place.1, 0), 21)?;
    }
    for place in PLACES {
        faulty(judge, &message, place, 22)?;
        judge.agree_on_signal(&message, &plain(place.0, place.1, 0))?;
    }
    Ok(())
}

fn faulty(judge: &mut Judge, message: &[u8], place: (u32, u32), number: u8) -> Verdict {
    let faults = faults();
    for is_signed in [0, 1] {
        for first in &faults {
            for second in &faults {
                let mut signal = plain(place.0, place.1, is_signed);
                first(&mut signal);
                second(&mut signal);
                judge.refuses_signal(message, &signal, number)?;
            }
        }
    }
    Ok(())
}
