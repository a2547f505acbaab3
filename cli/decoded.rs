//! The value of a signal, and how it lies to its limits.

use crate::definition::Definition;
use crate::json;
use crate::refusal;
use tikhoplav::signals::{self, ABOVE, BELOW, NOT_FINITE, WITHIN};

pub struct Decoded {
    value: f64,
    verdict: &'static str,
}

/// Has the archive decode a signal, or gives the number and the sentence of its refusal. `room` says
/// how many bits the message has.
pub fn decode(
    definition: &Definition,
    message: &[u8],
    room: &str,
) -> Result<Decoded, (u8, String)> {
    let mut bits = 0;
    let verdict = match signals::decode(message, &definition.signal(), &mut bits) {
        BELOW => "below",
        WITHIN => "within",
        ABOVE => "above",
        NOT_FINITE => "not-finite",
        answer => {
            let number = answer.unsigned_abs() as u8;
            return Err((number, refusal::of_signal(definition, room, number)));
        }
    };
    Ok(Decoded {
        value: f64::from_bits(bits),
        verdict,
    })
}

/// How many bits a message has, in words.
pub fn room(message: &[u8]) -> String {
    format!("the message has {}", 8 * message.len())
}

impl Decoded {
    /// Value, unit and verdict. The value has the fewest digits that read back as the same double.
    pub fn words(&self, unit: Option<&str>) -> String {
        let (value, verdict) = (self.value, self.verdict);
        match unit {
            Some(unit) => format!("{value:?} {unit} {verdict}"),
            None => format!("{value:?} {verdict}"),
        }
    }

    /// The same for `--json`, and the bits of the value.
    pub fn members(&self, unit: Option<&str>) -> Vec<(&'static str, json::Value)> {
        let mut members = vec![("value", json::Value::Double(self.value))];
        members.extend(unit.map(|unit| ("unit", json::Value::Text(unit.to_string()))));
        members.extend([
            (
                "bits",
                json::Value::Text(format!("{:016x}", self.value.to_bits())),
            ),
            ("verdict", json::Value::Text(self.verdict.to_string())),
        ]);
        members
    }
}
