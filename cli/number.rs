//! Numbers that options and files give.

use crate::failure::Failure;
use crate::options::Options;
use std::fmt;

/// Decimal digits, as they were given.
pub struct Number(String);

impl Number {
    /// The number of an option, or the other one where the option is not given.
    pub fn read(options: &Options, option: &str, otherwise: u32) -> Result<Number, Failure> {
        match options.value(option) {
            None => Ok(Number(otherwise.to_string())),
            Some(value) => Number::parse(&value.to_string_lossy())
                .map_err(|what| Failure::Usage(format!("{option}: {what}"))),
        }
    }

    /// The error says what is wrong with the text.
    pub fn parse(text: &str) -> Result<Number, String> {
        if text.is_empty() || !text.bytes().all(|byte| byte.is_ascii_digit()) {
            return Err(format!("'{text}' is no number in decimal digits"));
        }
        Ok(Number(text.to_string()))
    }

    /// The number for the call. One that is too large for it goes as the largest, which no call
    /// takes either.
    pub fn value(&self) -> u32 {
        self.exact().unwrap_or(u32::MAX)
    }

    /// None where the number is too large for a call.
    pub fn exact(&self) -> Option<u32> {
        self.0.parse().ok()
    }
}

impl fmt::Display for Number {
    fn fmt(&self, f: &mut fmt::Formatter) -> fmt::Result {
        f.write_str(&self.0)
    }
}
