//! One input of a call on frames, and what the call makes of it.

use crate::trial::{Outcome, Trial};
use tikhoplav::archive::Call as Sealing;
use tikhoplav::{frames, hex};

#[derive(Clone, Copy, Debug, PartialEq, Eq)]
pub enum Call {
    Make,
    Read,
}

#[derive(Clone)]
pub struct FrameTrial {
    pub call: Call,
    pub edition: u32,
    pub key: Vec<u8>,
    pub nonce: Vec<u8>,
    pub identifier: u32,
    /// The length code. Making is not told it.
    pub code: u32,
    /// The message, or the data field.
    pub data: Vec<u8>,
    /// The output as it is lent to the call.
    pub lent: Vec<u8>,
}

impl FrameTrial {
    /// The call that names the edition and, for edition 1, the one that names none.
    pub fn forms(&self) -> Vec<Option<u32>> {
        match self.edition {
            1 => vec![Some(1), None],
            edition => vec![Some(edition)],
        }
    }

    pub fn by_archive(&self, form: Option<u32>) -> Outcome {
        let mut out = self.lent.clone();
        let (key, nonce, data) = (&self.key, &self.nonce, &self.data);
        let answer = match self.call {
            Call::Make => frames::make(form, key, nonce, self.identifier, data, &mut out),
            Call::Read => {
                frames::read(form, key, nonce, self.identifier, self.code, data, &mut out)
            }
        };
        Outcome { answer, out }
    }

    pub fn by_model(&self, form: Option<u32>) -> Outcome {
        use model::frames;
        let room = self.lent.len();
        let (key, nonce, data) = (&self.key, &self.nonce, &self.data);
        let result = match self.call {
            Call::Make => frames::make(form, key, nonce, self.identifier, data, room),
            Call::Read => frames::read(form, key, nonce, self.identifier, self.code, data, room),
        };
        match result {
            Ok(written) => self.success(&written),
            Err(number) => self.refusal(number),
        }
    }

    pub fn success(&self, written: &[u8]) -> Outcome {
        Outcome::success(&self.lent, written)
    }

    pub fn refusal(&self, number: u8) -> Outcome {
        Outcome::refusal(&self.lent, number)
    }

    /// The sealing of a making's message, under the AD of its frame.
    pub fn sealing(&self) -> Trial {
        Trial {
            call: Sealing::Seal,
            edition: self.edition,
            key: self.key.clone(),
            nonce: self.nonce.clone(),
            ad: model::frames::associated_data(self.identifier, self.code).to_vec(),
            data: self.data.clone(),
            lent: Vec::new(),
        }
    }

    /// M, ciphertext and tag of a making by the model, whatever identifier, code and message are. No
    /// row is tried.
    pub fn front(&self) -> Vec<u8> {
        let sealing = self.sealing();
        let payload = model::payload(
            sealing.known_edition(),
            &sealing.key,
            &sealing.nonce,
            &model::coded_length(sealing.ad.len()),
            &sealing.ad,
            &sealing.data,
        );
        [&[self.data.len() as u8], &payload[..]].concat()
    }

    /// The whole data field, with its filler.
    pub fn field(&self) -> Vec<u8> {
        let mut field = self.front();
        field.resize(self.coded_length(), 0);
        field
    }

    /// What the code means, where it is one.
    pub fn coded_length(&self) -> usize {
        model::frames::coded_length(self.code).expect("a length code")
    }

    /// The input, its bytes in hex, for a report.
    pub fn shown(&self) -> String {
        format!(
            "{:?}, edition {}\n  key        {}\n  nonce      {}\n  identifier {:#x}\n  code       {}\n  data       {}\n  lent       {}\n",
            self.call,
            self.edition,
            hex::encode(&self.key),
            hex::encode(&self.nonce),
            self.identifier,
            self.code,
            hex::encode(&self.data),
            hex::encode(&self.lent),
        )
    }
}
