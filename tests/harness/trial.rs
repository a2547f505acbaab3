//! One input, and what a call makes of it.

use model::Edition;
use tikhoplav::archive::Call;
use tikhoplav::hex;

#[derive(Clone)]
pub struct Trial {
    pub call: Call,
    pub edition: u32,
    pub key: Vec<u8>,
    pub nonce: Vec<u8>,
    pub ad: Vec<u8>,
    /// The message, or the sealed input.
    pub data: Vec<u8>,
    /// The output as it is lent to the call.
    pub lent: Vec<u8>,
}

/// The answer, and the output afterwards.
#[derive(Clone, PartialEq, Eq)]
pub struct Outcome {
    pub answer: i64,
    pub out: Vec<u8>,
}

impl Trial {
    /// By the call that names the edition.
    pub fn by_archive(&self) -> Outcome {
        let mut out = self.lent.clone();
        let answer = self.call.run(
            self.edition,
            &self.key,
            &self.nonce,
            &self.ad,
            &self.data,
            &mut out,
        );
        Outcome { answer, out }
    }

    /// By the call that names none, which is for edition 1.
    pub fn by_unnamed_call(&self) -> Option<Outcome> {
        if self.edition != 1 {
            return None;
        }
        let mut out = self.lent.clone();
        let answer = self
            .call
            .run_unnamed(&self.key, &self.nonce, &self.ad, &self.data, &mut out);
        Some(Outcome { answer, out })
    }

    pub fn by_model(&self) -> Outcome {
        let run = match self.call {
            Call::Seal => model::seal,
            Call::Open => model::open,
        };
        match run(
            self.edition,
            &self.key,
            &self.nonce,
            &self.ad,
            &self.data,
            self.lent.len(),
        ) {
            Ok(written) => self.success(&written),
            Err(number) => self.refusal(number),
        }
    }

    /// The edition, where it is known.
    pub fn known_edition(&self) -> Edition {
        Edition::numbered(self.edition).expect("an edition that is known")
    }

    pub fn success(&self, written: &[u8]) -> Outcome {
        Outcome::success(&self.lent, written)
    }

    pub fn refusal(&self, number: u8) -> Outcome {
        Outcome::refusal(&self.lent, number)
    }

    /// The call and the inputs of another, and no less room.
    pub fn repeats(&self, other: &Trial) -> bool {
        (self.call, self.edition) == (other.call, other.edition)
            && self.inputs() == other.inputs()
            && self.lent.len() >= other.lent.len()
    }

    fn inputs(&self) -> [&[u8]; 4] {
        [&self.key, &self.nonce, &self.ad, &self.data]
    }

    /// The same under the key and the nonce of another.
    pub fn under(self, other: &Trial) -> Trial {
        Trial {
            key: other.key.clone(),
            nonce: other.nonce.clone(),
            ..self
        }
    }

    /// The input in hex, for a report.
    pub fn shown(&self) -> String {
        format!(
            "{:?}, edition {}\n  key      {}\n  nonce    {}\n  ad       {}\n  data     {}\n  lent     {}\n",
            self.call,
            self.edition,
            hex::encode(&self.key),
            hex::encode(&self.nonce),
            hex::encode(&self.ad),
            hex::encode(&self.data),
            hex::encode(&self.lent),
        )
    }
}

impl Outcome {
    /// The count, the bytes at the front, and behind them the output as lent.
    pub fn success(lent: &[u8], written: &[u8]) -> Outcome {
        let mut out = lent.to_vec();
        out[..written.len()].copy_from_slice(written);
        Outcome {
            answer: written.len() as i64,
            out,
        }
    }

    /// Minus the number, and the output as lent.
    pub fn refusal(lent: &[u8], number: u8) -> Outcome {
        Outcome {
            answer: -i64::from(number),
            out: lent.to_vec(),
        }
    }

    pub fn shown(&self) -> String {
        format!("{}, output {}", self.answer, hex::encode(&self.out))
    }
}
