//! Values just below and just beyond the largest double.

use super::judge::WIDE;
use crate::judge::{Judge, Verdict};
use tikhoplav::signals::{Signal, NOT_FINITE, WITHIN};

const MOST: f64 = f64::MAX;
const INFINITE: f64 = f64::INFINITY;

/// Half an ulp of the largest double, 2^970.
const HALF: f64 = f64::from_bits((1023 + 970) << 52);

/// The same with every sign turned gives the same with its sign turned.
fn expect(judge: &mut Judge, raw: u32, scale: f64, offset: f64, value: f64) -> Verdict {
    let answer = if value.is_finite() {
        WITHIN
    } else {
        NOT_FINITE
    };
    for sign in [1.0, -1.0] {
        let signal = Signal {
            start: 8,
            width: 32,
            is_signed: 0,
            scale: sign * scale,
            offset: sign * offset,
            low: WIDE.0,
            high: WIDE.1,
        };
        let message = [&[0x5a][..], &raw.to_be_bytes()].concat();
        judge.expect_signal(&message, &signal, (answer, sign * value))?;
    }
    Ok(())
}

/// Powers of two make the largest double exactly, and with a scale an ulp larger overflow. No
/// offset brings them back.
pub fn products(judge: &mut Judge) -> Verdict {
    for power in 0..32 {
        let raw = 1 << power;
        let scale = MOST / f64::from(raw);
        expect(judge, raw, scale, 0.0, MOST)?;
        if power > 0 {
            for offset in [0.0, -0.0, -1.0, -MOST, MOST] {
                expect(judge, raw, scale.next_up(), offset, INFINITE)?;
                expect(judge, raw, MOST, offset, INFINITE)?;
            }
        }
    }
    for raw in [3, 5, 7, 1000, u32::MAX] {
        let scale = MOST / f64::from(raw);
        expect(judge, raw, scale.next_up().next_up(), -MOST, INFINITE)?;
        expect(judge, raw, -scale.next_up().next_up(), MOST, -INFINITE)?;
    }
    Ok(())
}

/// Half an ulp beyond the largest double is a tie, and the largest double is odd.
pub fn sums(judge: &mut Judge) -> Verdict {
    for power in 0..32 {
        let raw = 1 << power;
        let scale = MOST / f64::from(raw);
        for offset in [0.0, -0.0, 1.0, HALF / 2.0, HALF.next_down(), -HALF / 2.0] {
            expect(judge, raw, scale, offset, MOST)?;
        }
        for offset in [HALF, HALF.next_up(), 2.0 * HALF, MOST] {
            expect(judge, raw, scale, offset, INFINITE)?;
        }
        let half = scale / 2.0;
        expect(judge, raw, half, MOST / 2.0, MOST)?;
        expect(judge, raw, half, (MOST / 2.0).next_up(), INFINITE)?;
    }
    Ok(())
}
