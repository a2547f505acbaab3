//! The judge of trials on frames.

use super::code_for;
use super::trial::{Call, FrameTrial};
use crate::judge::{Judge, Verdict};
use crate::trial::Outcome;
use tikhoplav::sizes::{IDENTIFIER_MAX, KEY_SIZE, NONCE_SIZE};

impl Judge {
    /// The archive does this, under edition 1 also by the call that names none, and so does the
    /// model.
    pub fn expect_frame(&mut self, trial: &FrameTrial, expected: &Outcome) -> Verdict {
        self.compare_frame(trial, Some(expected))
    }

    /// The archive does what the model does.
    pub fn agree_on_frame(&mut self, trial: &FrameTrial) -> Verdict {
        self.compare_frame(trial, None)
    }

    /// What is expected is what the model does, where nothing else is.
    fn compare_frame(&mut self, trial: &FrameTrial, expected: Option<&Outcome>) -> Verdict {
        self.comparisons += 1;
        for form in trial.forms() {
            let (archive, model) = (trial.by_archive(form), trial.by_model(form));
            let expected = expected.unwrap_or(&model);
            if [&archive, &model] != [expected; 2] {
                return Err(format!(
                    "{}  call for   {form:?}\n  archive    {}\n  model      {}\n  expected   {}",
                    trial.shown(),
                    archive.shown(),
                    model.shown(),
                    expected.shown()
                ));
            }
        }
        Ok(())
    }

    /// The making of a frame of random bytes, with exactly the room that it needs.
    pub fn making(&mut self, message_len: usize) -> FrameTrial {
        let making = FrameTrial {
            call: Call::Make,
            edition: self.edition,
            key: self.random.bytes(KEY_SIZE),
            nonce: self.random.bytes(NONCE_SIZE),
            identifier: self.random.number() as u32 & IDENTIFIER_MAX,
            code: code_for(message_len),
            data: self.random.bytes(message_len),
            lent: Vec::new(),
        };
        let room = making.coded_length();
        FrameTrial {
            lent: self.random.bytes(room),
            ..making
        }
    }

    /// The reading of the field that a making gives by the model, with this room.
    pub fn reading(&mut self, making: &FrameTrial, room: usize) -> FrameTrial {
        FrameTrial {
            call: Call::Read,
            data: making.field(),
            lent: self.random.bytes(room),
            ..making.clone()
        }
    }
}
