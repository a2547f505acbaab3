//! `tikhoplav seal` and `tikhoplav open`.

use crate::algorithm::Algorithm;
use crate::failure::Failure;
use crate::inputs::{Inputs, Tagged};
use crate::options::Options;
use crate::output;
use crate::refusal;
use tikhoplav::archive::Call;
use tikhoplav::grain128a;
use tikhoplav::sizes::{grain128a_tag_size, GRAIN128A_TAG_BITS_MAX, MESSAGE_MAX, SEALED_MAX};

const NO_AD: &str = "grain-128a has no associated data";

/// Reads everything, makes the call, and only on its success writes anything. The room is enough
/// for every legal input.
pub fn run(call: Call, options: &Options) -> Result<(), Failure> {
    match Algorithm::read(options)? {
        None | Some(Algorithm::Grain128Aead) => {
            options.exclude(&[("--tag-bits", "it goes with --cipher grain-128a")])?;
            with_grain128aead(call, options)
        }
        Some(Algorithm::Grain128a) => {
            options.exclude(&[
                ("--edition", "grain-128a has no editions"),
                ("--ad", NO_AD),
                ("--ad-file", NO_AD),
            ])?;
            with_grain128a(call, options)
        }
        Some(Algorithm::GrainV1) => Err(Failure::Usage(
            "--cipher: grain-v1 has no tag; it goes with crypt".to_string(),
        )),
    }
}

fn with_grain128aead(call: Call, options: &Options) -> Result<(), Failure> {
    let inputs = Inputs::read(options)?;
    let mut out = vec![0; SEALED_MAX];
    let answer = call.run(
        inputs.cipher.edition.value(),
        &inputs.cipher.secrets.key,
        &inputs.cipher.secrets.nonce,
        &inputs.ad,
        &inputs.data,
        &mut out,
    );
    let sentence = |number| refusal::sentence(call, &inputs, number);
    let result = output::written(answer, out, sentence)?;
    output::hand_out(options, &result)
}

fn with_grain128a(call: Call, options: &Options) -> Result<(), Failure> {
    let inputs = Tagged::read(options)?;
    let mut out = vec![0; MESSAGE_MAX + grain128a_tag_size(GRAIN128A_TAG_BITS_MAX)];
    let answer = grain128a::run(
        call,
        &inputs.secrets.key,
        &inputs.secrets.nonce,
        inputs.tag_bits.value(),
        &inputs.data,
        &mut out,
    );
    let sentence = |number| refusal::of_grain128a(call, &inputs, number);
    let result = output::written(answer, out, sentence)?;
    output::hand_out(options, &result)
}
