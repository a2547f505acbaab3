//! One input of a call of Grain-128a, and what the call makes of it.

use crate::trial::Outcome;
use model::grain128a as model;
use tikhoplav::sizes::grain128a_tag_size;
use tikhoplav::{archive, grain128a, hex};

#[derive(Clone, Copy, Debug, PartialEq, Eq)]
pub enum Call {
    Seal,
    Open,
    Crypt,
}

#[derive(Clone)]
pub struct Trial {
    pub call: Call,
    pub key: Vec<u8>,
    pub nonce: Vec<u8>,
    /// Crypt is not told it.
    pub tag_bits: u32,
    /// The message, or the sealed input.
    pub data: Vec<u8>,
    /// The output as it is lent to the call.
    pub lent: Vec<u8>,
}

impl Trial {
    pub fn by_archive(&self) -> Outcome {
        let mut out = self.lent.clone();
        let (key, nonce, data) = (&self.key, &self.nonce, &self.data);
        let with_tag =
            |call, out: &mut [u8]| grain128a::run(call, key, nonce, self.tag_bits, data, out);
        let answer = match self.call {
            Call::Seal => with_tag(archive::Call::Seal, &mut out),
            Call::Open => with_tag(archive::Call::Open, &mut out),
            Call::Crypt => grain128a::crypt(key, nonce, data, &mut out),
        };
        Outcome { answer, out }
    }

    pub fn by_model(&self) -> Outcome {
        let room = self.lent.len();
        let (key, nonce, data) = (&self.key, &self.nonce, &self.data);
        let result = match self.call {
            Call::Seal => model::seal(key, nonce, self.tag_bits, data, room),
            Call::Open => model::open(key, nonce, self.tag_bits, data, room),
            Call::Crypt => model::crypt(key, nonce, data, room),
        };
        match result {
            Ok(written) => self.success(&written),
            Err(number) => self.refusal(number),
        }
    }

    pub fn success(&self, written: &[u8]) -> Outcome {
        Outcome::success(&self.lent, written)
    }

    pub fn refusal(&self, number: u8) -> Outcome {
        Outcome::refusal(&self.lent, number)
    }

    /// The bytes of the tag; none without authentication.
    pub fn tag_size(&self) -> usize {
        match self.call {
            Call::Crypt => 0,
            _ => grain128a_tag_size(self.tag_bits),
        }
    }

    /// The input in hex, for a report.
    pub fn shown(&self) -> String {
        format!(
            "{:?}\n  key      {}\n  nonce    {}\n  tag bits {}\n  data     {}\n  lent     {}\n",
            self.call,
            hex::encode(&self.key),
            hex::encode(&self.nonce),
            self.tag_bits,
            hex::encode(&self.data),
            hex::encode(&self.lent),
        )
    }
}
