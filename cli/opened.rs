//! The frames of a capture, opened.

use crate::captured::{word, Captured};
use crate::failure::{accepted, Failure};
use crate::frame_signals::{self, FrameSignal};
use crate::inputs::Cipher;
use crate::json::Value;
use crate::notation::Frame;
use crate::output;
use crate::refusal;
use crate::signal_table::Table;
use tikhoplav::sizes::FRAME_MESSAGE_MAX;
use tikhoplav::{frames, hex};

/// The answer to a data field without M.
const NO_MESSAGE_LENGTH: i64 = -11;

/// A frame, and its message or why it is refused.
pub struct Opened<'a> {
    frame: &'a Captured<'a>,
    message: Result<Vec<u8>, (u8, String)>,
    /// Those of an opened frame, where a table of signals is given.
    signals: Option<Vec<FrameSignal<'a>>>,
}

/// Has the archive judge edition and key, whatever frames there are: on a data field without M,
/// which it refuses with 11 where both are in order.
pub fn judge(cipher: &Cipher) -> Result<(), Failure> {
    let (edition, secrets) = (cipher.edition.value(), &cipher.secrets);
    let (key, nonce) = (&secrets.key, &secrets.nonce);
    match frames::read(Some(edition), key, nonce, 0, 0, &[], &mut []) {
        NO_MESSAGE_LENGTH => Ok(()),
        answer => accepted(answer, |number| refusal::of_opening(cipher, number)).map(|_| ()),
    }
}

/// Opens the frame with its own identifier, code, nonce and data.
pub fn open<'a>(
    cipher: &mut Cipher,
    captured: &'a Captured,
    table: Option<&'a Table>,
) -> Opened<'a> {
    cipher.secrets.nonce = captured.nonce.to_vec();
    let frame = Frame {
        identifier: captured.identifier,
        flags: 0,
        data: captured.data.to_vec(),
    };
    let mut out = vec![0; FRAME_MESSAGE_MAX];
    let answer = frames::read(
        Some(cipher.edition.value()),
        &cipher.secrets.key,
        &cipher.secrets.nonce,
        captured.identifier.number,
        captured.code,
        captured.data,
        &mut out,
    );
    let sentence = |number| refusal::of_reading(cipher, &frame, number);
    let message = match output::written(answer, out, sentence) {
        Ok(message) => Ok(message),
        Err(Failure::Refusal(number, why)) => Err((number, why)),
        Err(_) => unreachable!("the archive answers or refuses"),
    };
    let signals = message.as_ref().ok().zip(table).map(|(message, table)| {
        let identifier = captured.identifier.number;
        frame_signals::of(table, identifier, message)
    });
    Opened {
        frame: captured,
        message,
        signals,
    }
}

impl Opened<'_> {
    pub fn is_opened(&self) -> bool {
        self.message.is_ok()
    }

    /// The refusal of the frame, or the first of a signal of it, under the number of the frame.
    pub fn refusal(&self) -> Option<Failure> {
        let (number, why) = match &self.message {
            Err((number, why)) => (*number, why.clone()),
            Ok(_) => self.signals().iter().find_map(FrameSignal::refusal)?,
        };
        let why = format!("frame {}: {why}", self.frame.number);
        Some(Failure::Refusal(number, why))
    }

    /// None where it is refused, or where no table of signals is given.
    pub fn signals(&self) -> &[FrameSignal<'_>] {
        self.signals.as_deref().unwrap_or_default()
    }

    /// As a line of `capture open`, and one for each signal.
    pub fn lines(&self) -> String {
        let name = self.frame.name();
        match &self.message {
            Ok(message) => {
                let signals: String = self.signals().iter().map(FrameSignal::line).collect();
                format!("{name} opened {}\n{signals}", word(message))
            }
            Err((number, why)) => format!("{name} refusal {number}: {why}\n"),
        }
    }

    /// The same for `--json`.
    pub fn object(&self) -> Value {
        let mut members = self.frame.name_members();
        match &self.message {
            Ok(message) => members.push(("message", Value::Text(hex::encode(message)))),
            Err((number, why)) => members.extend([
                ("refusal", Value::Number(usize::from(*number))),
                ("reason", Value::Text(why.clone())),
            ]),
        }
        if let Some(signals) = &self.signals {
            let objects = signals.iter().map(FrameSignal::object).collect();
            members.push(("signals", Value::List(objects)));
        }
        Value::Object(members)
    }
}
