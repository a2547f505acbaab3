//! The judge of trials of Grain v1.

use super::trial::Trial;
use crate::judge::{Judge, Verdict};
use crate::trial::Outcome;
use model::grainv1;
use tikhoplav::sizes::{GRAINV1_KEY_SIZE, GRAINV1_NONCE_SIZE};

impl Judge {
    /// The archive does this, and so does the model.
    pub fn expect_grainv1(&mut self, trial: &Trial, expected: &Outcome) -> Verdict {
        self.comparisons += 1;
        let (archive, model) = (trial.by_archive(), trial.by_model());
        if [&archive, &model] == [expected; 2] {
            return Ok(());
        }
        Err(format!(
            "{}  archive  {}\n  model    {}\n  expected {}",
            trial.shown(),
            archive.shown(),
            model.shown(),
            expected.shown()
        ))
    }

    /// The call takes the trial, and gives the sum of message and keystream.
    pub fn accepts_grainv1(&mut self, trial: &Trial) -> Verdict {
        let keystream = grainv1::keystream(&trial.key, &trial.nonce, trial.message.len());
        let expected = trial.success(&sum(&trial.message, &keystream));
        self.expect_grainv1(trial, &expected)
    }

    /// A legal trial of random bytes, with exactly the room that it needs.
    pub fn grainv1(&mut self, message_len: usize) -> Trial {
        Trial {
            key: self.random.bytes(GRAINV1_KEY_SIZE),
            nonce: self.random.bytes(GRAINV1_NONCE_SIZE),
            message: self.random.bytes(message_len),
            lent: self.random.bytes(message_len),
        }
    }
}

/// As far as both go.
pub fn sum(a: &[u8], b: &[u8]) -> Vec<u8> {
    a.iter().zip(b).map(|(a, b)| a ^ b).collect()
}
