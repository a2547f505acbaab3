//! Raw numbers, written into a message and read back.

use super::places::plain;
use crate::judge::{Judge, Verdict};
use tikhoplav::signals::WITHIN;

const LEN: usize = 6;
const RANDOM_TRIALS: usize = 60;

/// The least and the largest number of the width, and those beside them and beside 0.
pub fn ends(judge: &mut Judge) -> Verdict {
    for width in 1..=32 {
        let (half, whole) = (1i64 << (width - 1), 1i64 << width);
        for raw in [0, 1, half - 1, half, whole - 2, whole - 1] {
            round_trip(judge, width, 0, raw.rem_euclid(whole))?;
        }
        for raw in [-half, 1 - half, -2, -1, 0, 1, half - 2, half - 1] {
            if (-half..half).contains(&raw) {
                round_trip(judge, width, 1, raw)?;
            }
        }
    }
    Ok(())
}

pub fn random(judge: &mut Judge) -> Verdict {
    for width in 1..=32 {
        for _ in 0..RANDOM_TRIALS {
            let number = judge.random.number();
            let unsigned = (number >> (64 - width)) as i64;
            round_trip(judge, width, 0, unsigned)?;
            let signed = number as i64 >> (64 - width);
            round_trip(judge, width, 1, signed)?;
        }
    }
    Ok(())
}

/// Every number but 0 stands for a sign.
pub fn signs(judge: &mut Judge) -> Verdict {
    let powers = (0..u32::BITS).map(|bit| 1 << bit);
    for is_signed in powers.chain([3, 0xfffe, u32::MAX - 1, u32::MAX]) {
        for width in 1..=32 {
            let least = -1i64 << (width - 1);
            for raw in [least, -1, 0, least / 2] {
                round_trip(judge, width, is_signed, raw)?;
            }
        }
    }
    Ok(())
}

/// At each start, among random bits and among those that differ from them.
fn round_trip(judge: &mut Judge, width: u32, is_signed: u32, raw: i64) -> Verdict {
    for start in 0..=8 * LEN as u32 - width {
        let around = judge.random.bytes(LEN);
        let turned: Vec<u8> = around.iter().map(|byte| !byte).collect();
        for mut message in [around, turned] {
            write(&mut message, start, width, raw);
            let signal = plain(start, width, is_signed);
            judge.expect_signal(&message, &signal, (WITHIN, raw as f64))?;
        }
    }
    Ok(())
}

/// The lowest bits of the number, the last one at the end of the signal.
pub fn write(message: &mut [u8], start: u32, width: u32, raw: i64) {
    for i in 0..width {
        let place = (start + width - 1 - i) as usize;
        let bit = 0x80u8 >> (place % 8);
        if raw >> i & 1 == 1 {
            message[place / 8] |= bit;
        } else {
            message[place / 8] &= !bit;
        }
    }
}
