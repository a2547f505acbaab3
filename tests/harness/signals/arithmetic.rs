//! Where the order and the number of roundings show, and where small numbers could be lost.

use super::judge::WIDE;
use crate::judge::{Judge, Verdict};
use tikhoplav::signals::{Signal, WITHIN};

const RANDOM_TRIALS: usize = 200_000;
/// In how many of these a single rounding has to come to another value.
const TOLD_APART: usize = RANDOM_TRIALS / 2;

fn of_a_word(is_signed: u32, scale: f64, offset: f64) -> Signal {
    Signal {
        start: 0,
        width: 32,
        is_signed,
        scale,
        offset,
        low: WIDE.0,
        high: WIDE.1,
    }
}

/// The offset is minus the product, or some ulps from it, so that what was rounded off the product
/// is as large as the value.
pub fn cancelled(judge: &mut Judge) -> Verdict {
    let mut told_apart = 0;
    for _ in 0..RANDOM_TRIALS {
        let raw = judge.random.number() as u32;
        let scale = f64::from_bits(judge.random.number() >> 12 | 0x3ff << 52);
        let product = f64::from(raw) * scale;
        let ulps = judge.random.below(4) as u64;
        let offset = -f64::from_bits(product.to_bits() + ulps);
        let value = product + offset;
        told_apart += usize::from(f64::from(raw).mul_add(scale, offset) != value);
        let signal = of_a_word(0, scale, offset);
        judge.expect_signal(&raw.to_be_bytes(), &signal, (WITHIN, value))?;
    }
    judge.holds("a single rounding is told apart", told_apart > TOLD_APART)
}

/// Whole numbers of the least double above zero; up to 2^53 of them the bits are their count.
pub fn subnormal(judge: &mut Judge) -> Verdict {
    for _ in 0..RANDOM_TRIALS {
        let raw = judge.random.number() as i32 >> judge.random.below(32);
        let scale = judge.random.below(1 << 20) as i64 - (1 << 19);
        let offset = judge.random.number() as i64 >> (12 + judge.random.below(52));
        let signal = of_a_word(1, least_doubles(scale), least_doubles(offset));
        let value = least_doubles(i64::from(raw) * scale + offset);
        judge.expect_signal(&raw.to_be_bytes(), &signal, (WITHIN, value))?;
    }
    Ok(())
}

fn least_doubles(count: i64) -> f64 {
    let size = f64::from_bits(count.unsigned_abs());
    if count < 0 {
        -size
    } else {
        size
    }
}
