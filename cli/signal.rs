//! `tikhoplav signal`.

use crate::decoded::{decode, room};
use crate::definition::Definition;
use crate::failure::Failure;
use crate::inputs;
use crate::json::Value;
use crate::options::Options;
use crate::streams;

/// Prints the value and how it lies to its limits, or nothing where the archive refuses.
pub fn run(options: &Options) -> Result<(), Failure> {
    let definition = Definition::read(options)?;
    let message = inputs::data(options)?;
    let decoded = decode(&definition, &message, &room(&message))
        .map_err(|(number, why)| Failure::Refusal(number, why))?;
    let line = if options.has("--json") {
        Value::Object(decoded.members(None)).to_string()
    } else {
        decoded.words(None)
    };
    streams::write_stdout(format!("{line}\n").as_bytes())
}
