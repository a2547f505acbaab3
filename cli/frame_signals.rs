//! The signals of an opened frame.

use crate::decoded::{decode, room, Decoded};
use crate::json::Value;
use crate::signal_table::{Listed, Table};

/// A signal, and its value or why it is refused.
pub struct FrameSignal<'a> {
    listed: &'a Listed,
    decoded: Result<Decoded, (u8, String)>,
}

/// Those that the table has for the identifier.
pub fn of<'a>(table: &'a Table, identifier: u32, message: &[u8]) -> Vec<FrameSignal<'a>> {
    let room = room(message);
    table
        .of(identifier)
        .map(|listed| FrameSignal {
            listed,
            decoded: decode(&listed.definition, message, &room),
        })
        .collect()
}

impl FrameSignal<'_> {
    /// The refusal, under the name of the signal.
    pub fn refusal(&self) -> Option<(u8, String)> {
        let (number, why) = self.decoded.as_ref().err()?;
        Some((*number, format!("{}: {why}", self.listed.name)))
    }

    /// As a line below that of its frame.
    pub fn line(&self) -> String {
        let name = &self.listed.name;
        match &self.decoded {
            Ok(decoded) => format!("  {name} {}\n", decoded.words(self.listed.unit.as_deref())),
            Err((number, why)) => format!("  {name} refusal {number}: {why}\n"),
        }
    }

    /// The same for `--json`.
    pub fn object(&self) -> Value {
        let mut members = vec![("name", Value::Text(self.listed.name.clone()))];
        match &self.decoded {
            Ok(decoded) => members.extend(decoded.members(self.listed.unit.as_deref())),
            Err((number, why)) => members.extend([
                ("refusal", Value::Number(usize::from(*number))),
                ("reason", Value::Text(why.clone())),
            ]),
        }
        Value::Object(members)
    }
}
