//! `tikhoplav crypt`.

use crate::algorithm::Algorithm;
use crate::failure::Failure;
use crate::inputs::{self, Secrets};
use crate::options::Options;
use crate::output;
use crate::refusal;
use tikhoplav::sizes::MESSAGE_MAX;
use tikhoplav::{grain128a, grainv1};

/// A call that adds a keystream: key, nonce, message, output.
type Call = fn(&[u8], &[u8], &[u8], &mut [u8]) -> i64;

/// What is wrong with key and nonce or the message, where a call refused them with this number.
type Sentence = fn(&Secrets, &[u8], u8) -> String;

/// Reads everything, makes the call, and only on its success writes anything.
pub fn run(options: &Options) -> Result<(), Failure> {
    match Algorithm::read(options)? {
        Some(Algorithm::Grain128a) => with(grain128a::crypt, refusal::of_crypt, options),
        Some(Algorithm::GrainV1) => with(grainv1::crypt, refusal::of_grainv1, options),
        Some(Algorithm::Grain128Aead) => Err(Failure::Usage(
            "--cipher: grain-128aead has no mode without authentication".to_string(),
        )),
        None => Err(Failure::Usage(
            "--cipher is needed: grain-128a or grain-v1".to_string(),
        )),
    }
}

fn with(call: Call, sentence: Sentence, options: &Options) -> Result<(), Failure> {
    let secrets = Secrets::read(options)?;
    let message = inputs::data(options)?;
    let mut out = vec![0; MESSAGE_MAX];
    let answer = call(&secrets.key, &secrets.nonce, &message, &mut out);
    let result = output::written(answer, out, |number| sentence(&secrets, &message, number))?;
    output::hand_out(options, &result)
}
