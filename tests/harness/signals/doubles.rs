//! Scales, offsets and limits of every kind.

use crate::judge::{Judge, Verdict};
use crate::random::Random;
use tikhoplav::signals::Signal;

const LEN: usize = 8;
const RANDOM_TRIALS: usize = 12_000_000;

/// The smallest double above 1 is 1 and this.
const ULP: f64 = f64::EPSILON;
const LEAST_NORMAL: f64 = f64::MIN_POSITIVE;

/// Around zero, one, the whole numbers' end and the doubles' ends; no numbers.
const EDGES: [f64; 26] = [
    0.0,
    -0.0,
    5e-324,
    -5e-324,
    LEAST_NORMAL - 5e-324,
    LEAST_NORMAL,
    -LEAST_NORMAL,
    0.1,
    -0.3,
    0.5,
    1.0,
    -1.0,
    1.0 + ULP,
    1.0 - ULP / 2.0,
    10.0,
    4_294_967_295.0,
    -2_147_483_648.0,
    9_007_199_254_740_992.0,
    9_007_199_254_740_994.0,
    1e300,
    f64::MAX / 2.0,
    f64::MAX,
    f64::MIN,
    f64::INFINITY,
    f64::NEG_INFINITY,
    f64::NAN,
];

/// Raws: 0, 1, 3, -1 or 2^32 - 1, a half and less than that.
const MESSAGES: [[u8; 4]; 6] = [
    [0, 0, 0, 0],
    [0, 0, 0, 1],
    [0, 0, 0, 3],
    [0xff, 0xff, 0xff, 0xff],
    [0x80, 0, 0, 0],
    [0x7f, 0xff, 0xff, 0xff],
];

pub fn edges(judge: &mut Judge) -> Verdict {
    for (turn, message) in MESSAGES.iter().enumerate() {
        for scale in EDGES {
            for offset in EDGES {
                for low in EDGES {
                    for high in EDGES {
                        let signal = Signal {
                            start: 0,
                            width: 32,
                            is_signed: turn as u32 % 2,
                            scale,
                            offset,
                            low,
                            high,
                        };
                        judge.agree_on_signal(message, &signal)?;
                    }
                }
            }
        }
    }
    Ok(())
}

impl Random {
    /// Any bits at all; one at the edges; near it; a number of few digits.
    fn double(&mut self) -> f64 {
        match self.below(6) {
            0 => self.pick(&EDGES),
            1 => self.pick(&EDGES).next_up(),
            2 => (self.below(20_001) as f64 - 10_000.0) / 100.0,
            _ => f64::from_bits(self.number()),
        }
    }
}

/// All of it at random; most lie in the message.
pub fn random(judge: &mut Judge) -> Verdict {
    for _ in 0..RANDOM_TRIALS {
        let message = judge.random.number().to_be_bytes();
        let place = judge.random.number();
        let len = LEN - (place % 3) as usize;
        let limits = [judge.random.double(), judge.random.double()];
        let turned = place >> 60 != 0 && limits[0] > limits[1];
        let signal = Signal {
            start: (place >> 8) as u32 % 33,
            width: (place >> 16) as u32 % 34,
            is_signed: (place >> 24) as u32 % 2,
            scale: judge.random.double(),
            offset: judge.random.double(),
            low: limits[usize::from(turned)],
            high: limits[usize::from(!turned)],
        };
        judge.agree_on_signal(&message[..len], &signal)?;
    }
    Ok(())
}
