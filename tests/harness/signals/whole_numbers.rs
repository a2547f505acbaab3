//! Products and sums that are whole numbers of some power of two, rounded by whole numbers.

use super::judge::WIDE;
use super::raws::write;
use crate::judge::{Judge, Verdict};
use crate::random::Random;
use tikhoplav::signals::{Signal, WITHIN};

const RANDOM_TRIALS: usize = 300_000;
/// How many bits a double has for its digits.
const DIGITS: u32 = 53;
/// How far the offset's last digit may lie below the scale's.
const BELOW: i32 = 8;

/// An offset of 0 leaves the product as it is rounded.
pub fn products(judge: &mut Judge) -> Verdict {
    for _ in 0..RANDOM_TRIALS {
        let (raw, scale, power) = judge.random.product();
        let value = double(rounded(i128::from(raw) * scale), power);
        expect(judge, raw, double(scale, power), 0.0, value)?;
    }
    Ok(())
}

pub fn sums(judge: &mut Judge) -> Verdict {
    for _ in 0..RANDOM_TRIALS {
        let (raw, scale, power) = judge.random.product();
        let offset = judge.random.digits() << judge.random.below(68);
        let product = rounded(i128::from(raw) * scale) << BELOW;
        let value = double(rounded(product + offset), power - BELOW);
        let offset = double(offset, power - BELOW);
        expect(judge, raw, double(scale, power), offset, value)?;
    }
    Ok(())
}

impl Random {
    /// A raw number, the digits of a scale, and the power of two that they are times. Few digits of
    /// the raw number make ties.
    fn product(&mut self) -> (i64, i128, i32) {
        let width = self.pick(&[2, 3, 4, 8, 17, 31]);
        let size = (self.number() >> (64 - width)) as i64;
        let raw = self.pick(&[size, -size, size + (1 << 31)]);
        let power = self.below(1600) as i32 - 850;
        (raw, self.digits(), power)
    }

    fn digits(&mut self) -> i128 {
        let size = 1 << (DIGITS - 1) | self.number() >> (65 - DIGITS);
        self.pick(&[1, -1]) * i128::from(size)
    }
}

/// To the nearest that has no more digits than a double has, of two the one whose last digit is
/// even.
fn rounded(number: i128) -> i128 {
    let size = number.unsigned_abs();
    let bits = u128::BITS - size.leading_zeros();
    if bits <= DIGITS {
        return number;
    }
    let unit = 1 << (bits - DIGITS);
    let (whole, rest) = (size / unit, size % unit);
    let up = rest * 2 > unit || (rest * 2 == unit && whole % 2 == 1);
    let size = (whole + u128::from(up)) * unit;
    number.signum() * size as i128
}

/// Of a number that has no more digits than a double has.
fn double(number: i128, power: i32) -> f64 {
    let power = f64::from_bits(((1023 + power) as u64) << 52);
    number as f64 * power
}

/// A raw number below 0 takes a sign.
fn expect(judge: &mut Judge, raw: i64, scale: f64, offset: f64, value: f64) -> Verdict {
    let mut message = [0; 4];
    write(&mut message, 0, 32, raw);
    let signal = Signal {
        start: 0,
        width: 32,
        is_signed: u32::from(raw < 0),
        scale,
        offset,
        low: WIDE.0,
        high: WIDE.1,
    };
    judge.expect_signal(&message, &signal, (WITHIN, value))
}
