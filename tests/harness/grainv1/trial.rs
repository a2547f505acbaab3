//! One input of the call of Grain v1, and what the call makes of it.

use crate::trial::Outcome;
use model::grainv1 as model;
use tikhoplav::{grainv1, hex};

#[derive(Clone)]
pub struct Trial {
    pub key: Vec<u8>,
    pub nonce: Vec<u8>,
    pub message: Vec<u8>,
    /// The output as it is lent to the call.
    pub lent: Vec<u8>,
}

impl Trial {
    pub fn by_archive(&self) -> Outcome {
        let mut out = self.lent.clone();
        let answer = grainv1::crypt(&self.key, &self.nonce, &self.message, &mut out);
        Outcome { answer, out }
    }

    pub fn by_model(&self) -> Outcome {
        match model::crypt(&self.key, &self.nonce, &self.message, self.lent.len()) {
            Ok(written) => self.success(&written),
            Err(number) => self.refusal(number),
        }
    }

    pub fn success(&self, written: &[u8]) -> Outcome {
        Outcome::success(&self.lent, written)
    }

    pub fn refusal(&self, number: u8) -> Outcome {
        Outcome::refusal(&self.lent, number)
    }

    /// The input in hex, for a report.
    pub fn shown(&self) -> String {
        format!(
            "crypt\n  key      {}\n  nonce    {}\n  message  {}\n  lent     {}\n",
            hex::encode(&self.key),
            hex::encode(&self.nonce),
            hex::encode(&self.message),
            hex::encode(&self.lent),
        )
    }
}
