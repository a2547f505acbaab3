//! Doubles that options and files give.

use std::fmt;

/// A number as it was given, and the nearest double.
pub struct Real {
    text: String,
    pub value: f64,
}

impl Real {
    /// Takes what is not finite too. The error says what is wrong with the text.
    pub fn parse(text: &str) -> Result<Real, String> {
        match text.parse() {
            Ok(value) => Ok(Real {
                text: text.to_string(),
                value,
            }),
            Err(_) => Err(format!("'{text}' is no number")),
        }
    }
}

impl fmt::Display for Real {
    fn fmt(&self, f: &mut fmt::Formatter) -> fmt::Result {
        f.write_str(&self.text)
    }
}
