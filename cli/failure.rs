//! Why the tool stops, and the exit status that says so.

use std::fmt;

pub enum Failure {
    /// What was asked makes no sense; no call was made.
    Usage(String),
    /// A file or a stream could not be read or written.
    Io(String),
    /// The archive refused, with this number.
    Refusal(u8, String),
    /// The archive's answers are not the stored ones.
    Selftest(String),
}

impl Failure {
    /// A refusal's own number; for the rest the numbers of `sysexits.h`.
    pub fn status(&self) -> u8 {
        match self {
            Failure::Refusal(number, _) => *number,
            Failure::Usage(_) => 64,
            Failure::Selftest(_) => 70,
            Failure::Io(_) => 74,
        }
    }
}

/// The number that a call answers, or its refusal with the sentence for it.
pub fn accepted(answer: i64, sentence: impl Fn(u8) -> String) -> Result<usize, Failure> {
    usize::try_from(answer).map_err(|_| {
        let number = answer.unsigned_abs() as u8;
        Failure::Refusal(number, sentence(number))
    })
}

impl fmt::Display for Failure {
    fn fmt(&self, f: &mut fmt::Formatter) -> fmt::Result {
        match self {
            Failure::Usage(what) => write!(f, "tikhoplav: {what} (see tikhoplav --help)"),
            Failure::Io(what) | Failure::Selftest(what) => write!(f, "tikhoplav: {what}"),
            Failure::Refusal(number, why) => write!(f, "refusal {number}: {why}"),
        }
    }
}
