//! `tikhoplav frame make` and `tikhoplav frame read`.

use crate::candump;
use crate::failure::Failure;
use crate::inputs::{self, Cipher};
use crate::notation::{self, Frame, Identifier};
use crate::options::Options;
use crate::output;
use crate::refusal;
use tikhoplav::frames;
use tikhoplav::sizes::{FRAME_MAX, FRAME_MESSAGE_MAX, LENGTH_CODE_MAX};

/// Reads everything, makes the call, and only on its success writes anything.
pub fn make(options: &Options) -> Result<(), Failure> {
    let cipher = Cipher::read(options)?;
    let identifier = identifier(options)?;
    let flags = flags(options)?;
    let message = inputs::data(options)?;
    let mut out = vec![0; FRAME_MAX];
    let answer = frames::make(
        Some(cipher.edition.value()),
        &cipher.secrets.key,
        &cipher.secrets.nonce,
        identifier.number,
        &message,
        &mut out,
    );
    let sentence = |number| refusal::of_making(&cipher, &identifier, &message, number);
    let data = output::written(answer, out, sentence)?;
    let frame = Frame {
        identifier,
        flags,
        data,
    };
    output::write(options, format!("{frame}\n").as_bytes())
}

/// As `make`.
pub fn read(options: &Options) -> Result<(), Failure> {
    let cipher = Cipher::read(options)?;
    let input = inputs::data(options)?;
    let frame = candump::frame(&input).and_then(Frame::parse);
    let frame = frame.map_err(Failure::Usage)?;
    let mut out = vec![0; FRAME_MESSAGE_MAX];
    let answer = frames::read(
        Some(cipher.edition.value()),
        &cipher.secrets.key,
        &cipher.secrets.nonce,
        frame.identifier.number,
        length_code(&frame.data),
        &frame.data,
        &mut out,
    );
    let sentence = |number| refusal::of_reading(&cipher, &frame, number);
    let message = output::written(answer, out, sentence)?;
    output::hand_out(options, &message)
}

fn identifier(options: &Options) -> Result<Identifier, Failure> {
    let Some(text) = options.value("--id") else {
        return Err(Failure::Usage("--id is needed".to_string()));
    };
    Identifier::parse(text.as_encoded_bytes())
        .map_err(|what| Failure::Usage(format!("--id: {what}")))
}

/// No flags where the option is not given.
fn flags(options: &Options) -> Result<u8, Failure> {
    let Some(text) = options.value("--flags") else {
        return Ok(0);
    };
    notation::flags(text.as_encoded_bytes())
        .map_err(|what| Failure::Usage(format!("--flags: {what}")))
}

/// The code for the call. Data that no code holds goes with the largest, which is not its code
/// either.
fn length_code(data: &[u8]) -> u32 {
    u32::try_from(frames::length_code(data.len())).unwrap_or(LENGTH_CODE_MAX)
}
