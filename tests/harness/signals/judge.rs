//! The judge of signals.

use super::trial::{Outcome, Trial};
use crate::judge::{Judge, Verdict};
use tikhoplav::signals::Signal;

/// Between these lies every finite value.
pub const WIDE: (f64, f64) = (-f64::MAX, f64::MAX);

impl Judge {
    /// The archive does what the model does.
    pub fn agree_on_signal(&mut self, message: &[u8], signal: &Signal) -> Verdict {
        let trial = self.signal_trial(message, signal);
        let model = trial.by_model();
        self.archive_does(&trial, model, model)
    }

    /// The archive does this, and so does the model.
    pub fn expect_signal(
        &mut self,
        message: &[u8],
        signal: &Signal,
        expected: (i64, f64),
    ) -> Verdict {
        let trial = self.signal_trial(message, signal);
        let (answer, value) = expected;
        self.archive_does(&trial, trial.by_model(), (answer, value.to_bits()))
    }

    /// The archive refuses so, and so does the model; the bits are as they were lent.
    pub fn refuses_signal(&mut self, message: &[u8], signal: &Signal, number: u8) -> Verdict {
        let trial = self.signal_trial(message, signal);
        self.archive_does(&trial, trial.by_model(), trial.refusal(number))
    }

    fn signal_trial<'a>(&mut self, message: &'a [u8], signal: &Signal) -> Trial<'a> {
        Trial {
            message,
            signal: *signal,
            lent: self.random.number(),
        }
    }

    fn archive_does(&mut self, trial: &Trial, model: Outcome, expected: Outcome) -> Verdict {
        self.comparisons += 1;
        let archive = trial.by_archive();
        if [archive, model] == [expected; 2] {
            return Ok(());
        }
        let [archive, model, expected] =
            [archive, model, expected].map(|(answer, bits)| format!("{answer}, {bits:016x}"));
        Err(format!(
            "{}  archive  {archive}\n  model    {model}\n  expected {expected}",
            trial.shown()
        ))
    }
}
