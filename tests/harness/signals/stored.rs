//! The selftest's stored signals.

use crate::judge::{Judge, Verdict};
use tikhoplav::signal_vectors::STORED;

pub fn run(judge: &mut Judge) -> Verdict {
    for stored in &STORED {
        let decoded = match stored.decoded {
            Ok((answer, bits)) => {
                let expected = (answer, f64::from_bits(bits));
                judge.expect_signal(stored.message, &stored.signal, expected)
            }
            Err(number) => judge.refuses_signal(stored.message, &stored.signal, number),
        };
        decoded.map_err(|what| format!("{}: {what}", stored.name))?;
    }
    Ok(())
}
