//! Compares, counts the comparisons, and stops at the first that fails.

use crate::random::Random;
use crate::trial::{Outcome, Trial};
use tikhoplav::archive::Call;
use tikhoplav::sizes::{KEY_SIZE, NONCE_SIZE, TAG_SIZE};

pub type Verdict = Result<(), String>;

pub struct Judge {
    /// The edition of the trials that it makes.
    pub edition: u32,
    pub random: Random,
    pub comparisons: usize,
    /// The last sealing that the model accepted, and its payload.
    sealed: Option<(Trial, Vec<u8>)>,
}

impl Judge {
    pub fn new(edition: u32, seed: u64) -> Judge {
        Judge {
            edition,
            random: Random::seeded(seed),
            comparisons: 0,
            sealed: None,
        }
    }

    /// The archive does this, under edition 1 also by the call that names none, and so does the
    /// model.
    pub fn expect(&mut self, trial: &Trial, expected: &Outcome) -> Verdict {
        self.comparisons += 1;
        let (archive, model) = (trial.by_archive(), self.by_model(trial));
        let unnamed = trial.by_unnamed_call().unwrap_or(archive.clone());
        if [&archive, &unnamed, &model] == [expected; 3] {
            return Ok(());
        }
        Err(format!(
            "{}  archive  {}\n  unnamed  {}\n  model    {}\n  expected {}",
            trial.shown(),
            archive.shown(),
            unnamed.shown(),
            model.shown(),
            expected.shown()
        ))
    }

    /// What the model makes of a trial. The last payload is remembered, since most are asked for more
    /// than once: to open them, and to hold sealing to them.
    fn by_model(&mut self, trial: &Trial) -> Outcome {
        let known = self.sealed.as_ref();
        if let Some((_, payload)) = known.filter(|(sealing, _)| trial.repeats(sealing)) {
            return trial.success(payload);
        }
        let outcome = trial.by_model();
        if let (Call::Seal, Ok(count)) = (trial.call, usize::try_from(outcome.answer)) {
            self.sealed = Some((trial.clone(), outcome.out[..count].to_vec()));
        }
        outcome
    }

    /// Something beside what sealing and opening do.
    pub fn holds(&mut self, what: &str, holds: bool) -> Verdict {
        self.comparisons += 1;
        if holds {
            return Ok(());
        }
        Err(format!("does not hold: {what}"))
    }

    /// A sealing of random bytes, with exactly the room that it needs.
    pub fn sealing(&mut self, ad_len: usize, message_len: usize) -> Trial {
        Trial {
            call: Call::Seal,
            edition: self.edition,
            key: self.random.bytes(KEY_SIZE),
            nonce: self.random.bytes(NONCE_SIZE),
            ad: self.random.bytes(ad_len),
            data: self.random.bytes(message_len),
            lent: self.random.bytes(message_len + TAG_SIZE),
        }
    }

    /// The opening of what a sealing gives by the model, with exactly the room that it needs.
    pub fn opening(&mut self, sealing: &Trial) -> Trial {
        Trial {
            call: Call::Open,
            data: self.by_model(sealing).out,
            lent: self.random.bytes(sealing.data.len()),
            ..sealing.clone()
        }
    }

    /// A sealing of random bytes and the opening of its payload, each with what it gives.
    pub fn both_calls(&mut self, ad_len: usize, message_len: usize) -> [(Trial, Vec<u8>); 2] {
        let sealing = self.sealing(ad_len, message_len);
        let opening = self.opening(&sealing);
        let (payload, message) = (opening.data.clone(), sealing.data.clone());
        [(sealing, payload), (opening, message)]
    }
}
