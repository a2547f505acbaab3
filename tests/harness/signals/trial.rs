//! One input of the call on signals, and what the call makes of it.

use model::signals::{decode, Numbers};
use tikhoplav::hex;
use tikhoplav::signals::{self, Signal};

#[derive(Clone, Copy)]
pub struct Trial<'a> {
    pub message: &'a [u8],
    pub signal: Signal,
    /// What stands at `value_bits` before the call.
    pub lent: u64,
}

/// What a call answers, and what stands at `value_bits` after it.
pub type Outcome = (i64, u64);

impl Trial<'_> {
    pub fn by_archive(&self) -> Outcome {
        let mut value_bits = self.lent;
        let answer = signals::decode(self.message, &self.signal, &mut value_bits);
        (answer, value_bits)
    }

    pub fn by_model(&self) -> Outcome {
        let signal = &self.signal;
        let numbers = Numbers {
            scale: signal.scale,
            offset: signal.offset,
            low: signal.low,
            high: signal.high,
        };
        let signed = signal.is_signed != 0;
        match decode(self.message, signal.start, signal.width, signed, &numbers) {
            Ok((answer, value)) => (answer, value.to_bits()),
            Err(number) => self.refusal(number),
        }
    }

    pub fn refusal(&self, number: u8) -> Outcome {
        (-i64::from(number), self.lent)
    }

    pub fn shown(&self) -> String {
        let front = &self.message[..self.message.len().min(64)];
        format!(
            "{:?}\n  message  {}.. of {} bytes\n  lent     {:016x}\n",
            self.signal,
            hex::encode(front),
            self.message.len(),
            self.lent
        )
    }
}
