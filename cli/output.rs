//! What a command hands out.

use crate::failure::{accepted, Failure};
use crate::options::Options;
use crate::streams;
use tikhoplav::hex;

/// What a call has written to the front of `out`, or its refusal with the sentence for it.
pub fn written(
    answer: i64,
    mut out: Vec<u8>,
    sentence: impl Fn(u8) -> String,
) -> Result<Vec<u8>, Failure> {
    out.truncate(accepted(answer, sentence)?);
    Ok(out)
}

/// Hands out bytes, or their hex digits if so asked.
pub fn hand_out(options: &Options, bytes: &[u8]) -> Result<(), Failure> {
    if options.has("--hex-out") {
        write(options, (hex::encode(bytes) + "\n").as_bytes())
    } else {
        write(options, bytes)
    }
}

/// Writes to `--out` or standard output.
pub fn write(options: &Options, bytes: &[u8]) -> Result<(), Failure> {
    match options.value("--out") {
        Some(path) if path != "-" => streams::write_file(path, bytes),
        _ => streams::write_stdout(bytes),
    }
}
