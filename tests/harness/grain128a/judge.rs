//! The judge of trials of Grain-128a.

use super::trial::{Call, Trial};
use crate::judge::{Judge, Verdict};
use crate::trial::Outcome;
use model::grain128a;
use tikhoplav::sizes::{grain128a_tag_size, KEY_SIZE, NONCE_SIZE};

impl Judge {
    /// The archive does this, and so does the model.
    pub fn expect_grain128a(&mut self, trial: &Trial, expected: &Outcome) -> Verdict {
        let model = trial.by_model();
        self.compare_grain128a(trial, &model, expected)
    }

    /// The archive does what the model does.
    pub fn agree_on_grain128a(&mut self, trial: &Trial) -> Verdict {
        let model = trial.by_model();
        self.compare_grain128a(trial, &model, &model)
    }

    fn compare_grain128a(&mut self, trial: &Trial, model: &Outcome, expected: &Outcome) -> Verdict {
        self.comparisons += 1;
        let archive = trial.by_archive();
        if [&archive, model] == [expected; 2] {
            return Ok(());
        }
        Err(format!(
            "{}  archive  {}\n  model    {}\n  expected {}",
            trial.shown(),
            archive.shown(),
            model.shown(),
            expected.shown()
        ))
    }

    /// A trial of random bytes, with a nonce of the call's mode and room for the data and a tag.
    pub fn grain128a(&mut self, call: Call, tag_bits: u32, data_len: usize) -> Trial {
        let mut nonce = self.random.bytes(NONCE_SIZE);
        match call {
            Call::Crypt => nonce[0] &= 0x7f,
            _ => nonce[0] |= 0x80,
        }
        Trial {
            call,
            key: self.random.bytes(KEY_SIZE),
            nonce,
            tag_bits,
            data: self.random.bytes(data_len),
            lent: self.random.bytes(data_len + grain128a_tag_size(tag_bits)),
        }
    }

    /// A tag's length.
    pub fn tag_bits(&mut self) -> u32 {
        1 + self.random.below(32) as u32
    }

    /// The opening of what a sealing gives by the model, with exactly the room that it needs. No row
    /// is tried.
    pub fn grain128a_opening(&mut self, sealing: &Trial) -> Trial {
        let (key, nonce) = (&sealing.key, &sealing.nonce);
        Trial {
            call: Call::Open,
            data: grain128a::payload(key, nonce, sealing.tag_bits, &sealing.data),
            lent: self.random.bytes(sealing.data.len()),
            ..sealing.clone()
        }
    }

    /// A legal trial of each call on a message of random bytes, with what it gives, and exactly the
    /// room that this needs.
    pub fn grain128a_calls(&mut self, tag_bits: u32, message_len: usize) -> [(Trial, Vec<u8>); 3] {
        let sealing = self.grain128a(Call::Seal, tag_bits, message_len);
        let opening = self.grain128a_opening(&sealing);
        let mut crypt = self.grain128a(Call::Crypt, tag_bits, message_len);
        crypt.lent.truncate(message_len);
        let (payload, message) = (opening.data.clone(), sealing.data.clone());
        let preoutputs = grain128a::preoutputs(&crypt.key, &crypt.nonce, 8 * message_len);
        let keystream = model::Edition::First.bytes(&preoutputs);
        let enciphered = crypt.data.iter().zip(keystream).map(|(a, b)| a ^ b);
        let enciphered = enciphered.collect();
        [(sealing, payload), (opening, message), (crypt, enciphered)]
    }
}
