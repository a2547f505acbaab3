//! How a value lies to its limits.

use crate::judge::{Judge, Verdict};
use tikhoplav::signals::{Signal, ABOVE, BELOW, WITHIN};

const RANDOM_TRIALS: usize = 100_000;
const MOST: f64 = f64::MAX;
const LEAST: f64 = 5e-324;

/// Of random values; both ends are included.
pub fn around(judge: &mut Judge) -> Verdict {
    for _ in 0..RANDOM_TRIALS {
        let raw = judge.random.number() as i32 >> judge.random.below(32);
        let scale = f64::from_bits(judge.random.number());
        let offset = f64::from_bits(judge.random.number());
        let value = f64::from(raw) * scale + offset;
        if !value.is_finite() || [scale, offset].iter().any(|number| !number.is_finite()) {
            continue;
        }
        let (down, up) = (value.next_down(), value.next_up());
        for (low, high, answer) in [
            (value, value, WITHIN),
            (down, up, WITHIN),
            (value, MOST, WITHIN),
            (-MOST, value, WITHIN),
            (up, MOST, BELOW),
            (up, up, BELOW),
            (-MOST, down, ABOVE),
            (down, down, ABOVE),
        ] {
            let signal = Signal {
                start: 0,
                width: 32,
                is_signed: 1,
                scale,
                offset,
                low,
                high,
            };
            if low.is_finite() && high.is_finite() {
                judge.expect_signal(&raw.to_be_bytes(), &signal, (answer, value))?;
            }
        }
    }
    Ok(())
}

/// Both zeros are one number, as values and as limits.
pub fn zeros(judge: &mut Judge) -> Verdict {
    let values = [
        (0, 1.0, 0.0, 0.0),
        (0, 1.0, -0.0, 0.0),
        (0, -1.0, 0.0, 0.0),
        (0, -1.0, -0.0, -0.0),
        (1, 1.0, -1.0, 0.0),
        (0xff, -1.0, -1.0, 0.0),
        (7, -0.0, -0.0, -0.0),
        (0xf9, 0.0, -0.0, -0.0),
    ];
    for (raw, scale, offset, value) in values {
        for (low, high, answer) in [
            (0.0, 0.0, WITHIN),
            (-0.0, -0.0, WITHIN),
            (-0.0, 0.0, WITHIN),
            (0.0, -0.0, WITHIN),
            (-LEAST, -0.0, WITHIN),
            (0.0, LEAST, WITHIN),
            (LEAST, LEAST, BELOW),
            (-LEAST, -LEAST, ABOVE),
        ] {
            let signal = Signal {
                start: 0,
                width: 8,
                is_signed: 1,
                scale,
                offset,
                low,
                high,
            };
            judge.expect_signal(&[raw], &signal, (answer, value))?;
        }
    }
    Ok(())
}
