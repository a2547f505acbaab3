//! Stored signals: the sample of document 02, and others.

use crate::signals::{Signal, ABOVE, BELOW, NOT_FINITE, WITHIN};

pub struct Stored {
    pub name: &'static str,
    pub message: &'static [u8],
    pub signal: Signal,
    /// The answer and the bits of the value, or the number of the refusal.
    pub decoded: Result<(i64, u64), u8>,
}

/// A signal of a scale and an offset, with limits.
const fn signal(
    place: (u32, u32),
    is_signed: bool,
    line: (f64, f64),
    limits: (f64, f64),
) -> Signal {
    Signal {
        start: place.0,
        width: place.1,
        is_signed: is_signed as u32,
        scale: line.0,
        offset: line.1,
        low: limits.0,
        high: limits.1,
    }
}

const MOST: f64 = f64::MAX;
const ANY: (f64, f64) = (-MOST, MOST);

pub const STORED: [Stored; 18] = [
    Stored {
        name: "the sample: raw -1 of width 8 with scale 0.5 and offset 10 is 9.5",
        message: &[0xff],
        signal: signal((0, 8), true, (0.5, 10.0), (0.0, 10.0)),
        decoded: Ok((WITHIN, 0x4023_0000_0000_0000)),
    },
    Stored {
        name: "the same bits without a sign are 137.5, above the high limit",
        message: &[0xff],
        signal: signal((0, 8), false, (0.5, 10.0), (0.0, 10.0)),
        decoded: Ok((ABOVE, 0x4061_3000_0000_0000)),
    },
    Stored {
        name: "a value at its high limit is within",
        message: &[0x09, 0x60],
        signal: signal((0, 16), false, (1.0, 0.0), (0.0, 2400.0)),
        decoded: Ok((WITHIN, 0x40a2_c000_0000_0000)),
    },
    Stored {
        name: "a value at its low limit is within",
        message: &[0x09, 0x60],
        signal: signal((0, 16), false, (1.0, 0.0), (2400.0, 2400.0)),
        decoded: Ok((WITHIN, 0x40a2_c000_0000_0000)),
    },
    Stored {
        name: "a value below its low limit",
        message: &[0x09, 0x60],
        signal: signal((0, 16), false, (1.0, -0.5), (2400.0, 2400.0)),
        decoded: Ok((BELOW, 0x40a2_bf00_0000_0000)),
    },
    Stored {
        name: "13 bits across three bytes",
        message: &[0x00, 0x0f, 0xff, 0x80, 0x00],
        signal: signal((12, 13), false, (1.0, 0.0), ANY),
        decoded: Ok((WITHIN, 0x40bf_ff00_0000_0000)),
    },
    Stored {
        name: "width 32 without a sign, all ones",
        message: &[0xff; 4],
        signal: signal((0, 32), false, (1.0, 0.0), ANY),
        decoded: Ok((WITHIN, 0x41ef_ffff_ffe0_0000)),
    },
    Stored {
        name: "width 32 with a sign, the sign alone",
        message: &[0x80, 0, 0, 0],
        signal: signal((0, 32), true, (1.0, 0.0), ANY),
        decoded: Ok((WITHIN, 0xc1e0_0000_0000_0000)),
    },
    Stored {
        name: "the product is rounded before the offset is added: 3 times 0.1 less 0.3",
        message: &[3],
        signal: signal((0, 8), false, (0.1, -0.3), ANY),
        decoded: Ok((WITHIN, 0x3c90_0000_0000_0000)),
    },
    Stored {
        name: "a product between two doubles goes to the even one: 2^53 and 1",
        message: &[3],
        signal: signal((0, 8), false, (3_002_399_751_580_331.0, 0.0), ANY),
        decoded: Ok((WITHIN, 0x4340_0000_0000_0000)),
    },
    Stored {
        name: "a value below the normal doubles is kept",
        message: &[3],
        signal: signal((0, 8), false, (5e-324, 0.0), ANY),
        decoded: Ok((WITHIN, 3)),
    },
    Stored {
        name: "a product beyond the largest double is infinite",
        message: &[2],
        signal: signal((0, 8), false, (MOST, -MOST), ANY),
        decoded: Ok((NOT_FINITE, 0x7ff0_0000_0000_0000)),
    },
    Stored {
        name: "and so is one beyond the lowest",
        message: &[0xfe],
        signal: signal((0, 8), true, (MOST, MOST), ANY),
        decoded: Ok((NOT_FINITE, 0xfff0_0000_0000_0000)),
    },
    Stored {
        name: "minus zero is not below zero",
        message: &[0],
        signal: signal((0, 8), false, (-1.0, -0.0), (0.0, 0.0)),
        decoded: Ok((WITHIN, 0x8000_0000_0000_0000)),
    },
    Stored {
        name: "no bits",
        message: &[0xff],
        signal: signal((0, 0), false, (f64::NAN, 0.0), ANY),
        decoded: Err(21),
    },
    Stored {
        name: "33 bits",
        message: &[0xff; 8],
        signal: signal((0, 33), false, (1.0, 0.0), ANY),
        decoded: Err(21),
    },
    Stored {
        name: "a bit behind the message",
        message: &[0xff],
        signal: signal((1, 8), false, (1.0, 0.0), (1.0, 0.0)),
        decoded: Err(21),
    },
    Stored {
        name: "a low limit above the high one",
        message: &[0xff],
        signal: signal((0, 8), false, (1.0, 0.0), (1.0, 0.0)),
        decoded: Err(22),
    },
];
