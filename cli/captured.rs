//! The frames of a capture.

use crate::failure::{accepted, Failure};
use crate::json::Value;
use crate::notation::Identifier;
use crate::refusal;
use tikhoplav::{captures, hex};

pub struct Captured<'a> {
    pub number: usize,
    /// Where its body begins in the capture.
    pub place: usize,
    pub identifier: Identifier,
    pub code: u32,
    pub nonce: &'a [u8],
    pub data: &'a [u8],
}

/// All frames, in walking order, or the refusal of the capture.
pub fn frames(capture: &[u8]) -> Result<Vec<Captured<'_>>, Failure> {
    let count = answered(capture, captures::frames(capture))?;
    (0..count).map(|number| frame(capture, number)).collect()
}

fn frame(capture: &[u8], number: usize) -> Result<Captured<'_>, Failure> {
    let place = answered(capture, captures::frame(capture, number as u64))?;
    let size = answered(capture, captures::frame_size(capture, number as u64))?;
    let parts = captures::parts(&capture[place..place + size]);
    Ok(Captured {
        number,
        place,
        identifier: Identifier::extended(parts.identifier),
        code: parts.code,
        nonce: parts.nonce,
        data: parts.data,
    })
}

fn answered(capture: &[u8], answer: i64) -> Result<usize, Failure> {
    accepted(answer, |number| refusal::of_capture(capture, number))
}

impl Captured<'_> {
    /// As a line of `capture list`.
    pub fn line(&self) -> String {
        let (nonce, data) = (hex::encode(self.nonce), word(self.data));
        format!("{} {} {nonce} {data}\n", self.name(), self.code)
    }

    /// The same for `--json`.
    pub fn object(&self) -> Value {
        let mut members = self.name_members();
        members.extend([
            ("code", Value::Number(self.code as usize)),
            ("nonce", Value::Text(hex::encode(self.nonce))),
            ("data", Value::Text(hex::encode(self.data))),
        ]);
        Value::Object(members)
    }

    /// Number, place and identifier, which every line about a frame begins with.
    pub fn name(&self) -> String {
        format!("{} {} {}", self.number, self.place, self.identifier)
    }

    pub fn name_members(&self) -> Vec<(&'static str, Value)> {
        vec![
            ("number", Value::Number(self.number)),
            ("place", Value::Number(self.place)),
            ("identifier", Value::Text(self.identifier.to_string())),
        ]
    }
}

/// Bytes as one word of a line: hex digits, or `-` for no bytes.
pub fn word(bytes: &[u8]) -> String {
    match bytes {
        [] => "-".to_string(),
        _ => hex::encode(bytes),
    }
}
