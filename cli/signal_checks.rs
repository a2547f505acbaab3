//! The selftest's stored signals.

use crate::selftest::{check, Check};
use tikhoplav::signal_vectors::{Stored, STORED};
use tikhoplav::signals;

pub const HEADING: &str = "\
stored signals, the sample and others
  They are not published. The bits of the values are IEEE 754's.
";

/// What stands where the bits of the value go.
const LENT: u64 = 0x5a5b_5c5d_5e5f_6061;

pub fn all() -> Vec<Check> {
    STORED.iter().map(signal).collect()
}

/// A refusal leaves the bits as they are lent.
fn signal(stored: &Stored) -> Check {
    let mut bits = LENT;
    let answer = signals::decode(stored.message, &stored.signal, &mut bits);
    match stored.decoded {
        Ok(decoded) => check(stored.name.to_string(), (answer, bits) == decoded),
        Err(number) => check(
            format!("{} refused with {number}, and nothing written", stored.name),
            (answer, bits) == (-i64::from(number), LENT),
        ),
    }
}
