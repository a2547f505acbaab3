//! Signals of the longest message of a frame.

use crate::rounds::Pair;
use model::signals::Numbers;
use std::hint::black_box;
use tikhoplav::signals::{self, Signal, WITHIN};
use tikhoplav::sizes::FRAME_MESSAGE_MAX;

const NUMBERS: Numbers = Numbers {
    scale: 0.25,
    offset: -40.0,
    low: -1e9,
    high: 1.1e9,
};

/// All signals of so many bits, one at each start, with the independent reader as the yardstick.
pub fn decoding(width: u32) -> Pair {
    let message = [0x5a; FRAME_MESSAGE_MAX];
    let starts = 8 * FRAME_MESSAGE_MAX as u32 - width;
    Pair {
        ours: Box::new(move || {
            for start in 0..=starts {
                let mut bits = 0;
                let answer = signals::decode(black_box(&message), &signal(start, width), &mut bits);
                assert!(black_box(bits) != 0 && answer == WITHIN);
            }
        }),
        yardstick: Box::new(move || {
            for start in 0..=starts {
                let message = black_box(&message);
                let decoded = model::signals::decode(message, start, width, true, &NUMBERS);
                assert!(matches!(black_box(decoded), Ok((WITHIN, _))));
            }
        }),
    }
}

fn signal(start: u32, width: u32) -> Signal {
    Signal {
        start,
        width,
        is_signed: 1,
        scale: NUMBERS.scale,
        offset: NUMBERS.offset,
        low: NUMBERS.low,
        high: NUMBERS.high,
    }
}
