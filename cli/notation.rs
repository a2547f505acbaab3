//! A CAN FD frame as can-utils write it: `ID##FDATA`.

use std::fmt;
use tikhoplav::hex;

const STANDARD_DIGITS: usize = 3;
const STANDARD_MAX: u32 = 0x7ff;
const EXTENDED_DIGITS: usize = 8;

/// An identifier, and the count of its hex digits: three for 11 bits, eight for 29.
#[derive(Clone, Copy)]
pub struct Identifier {
    pub number: u32,
    digits: usize,
}

pub struct Frame {
    pub identifier: Identifier,
    pub flags: u8,
    pub data: Vec<u8>,
}

impl Identifier {
    /// A number that is written with eight digits.
    pub fn extended(number: u32) -> Identifier {
        Identifier {
            number,
            digits: EXTENDED_DIGITS,
        }
    }

    /// Eight digits are taken whatever their number. The error says what is wrong with the text.
    pub fn parse(text: &[u8]) -> Result<Identifier, String> {
        let digits = text.len();
        match (digits, number(text)) {
            (STANDARD_DIGITS, Some(number @ ..=STANDARD_MAX)) | (EXTENDED_DIGITS, Some(number)) => {
                Ok(Identifier { number, digits })
            }
            _ => Err(format!(
                "{} is no identifier: three hex digits, 000 to 7FF, or eight",
                quoted(text)
            )),
        }
    }
}

impl Frame {
    /// Takes a text that has a `#`. The error says what is wrong with it.
    pub fn parse(text: &[u8]) -> Result<Frame, String> {
        let mark = text.iter().position(|&byte| byte == b'#');
        let (identifier, rest) = text.split_at(mark.unwrap_or(text.len()));
        match rest {
            [b'#', b'#'] => Err("the frame has no flags digit behind ##".to_string()),
            [b'#', b'#', flags, data @ ..] => Ok(Frame {
                identifier: Identifier::parse(identifier)?,
                flags: self::flags(&[*flags])?,
                data: self::data(data)?,
            }),
            [b'#', b'R' | b'r', ..] => {
                Err("the frame is a remote frame, which has no data".to_string())
            }
            _ => Err(
                "the frame is not CAN FD: it has one # behind the identifier, as in classic CAN, \
                 and not two"
                    .to_string(),
            ),
        }
    }
}

/// The flags as one hex digit. The error says what is wrong with the text.
pub fn flags(text: &[u8]) -> Result<u8, String> {
    match (text.len(), number(text)) {
        (1, Some(flags)) => Ok(flags as u8),
        _ => Err(format!("{} is no flags digit", quoted(text))),
    }
}

/// The number that hex digits spell; none where something else is among them.
fn number(text: &[u8]) -> Option<u32> {
    text.iter().try_fold(0, |number, &byte| {
        Some(number << 4 | char::from(byte).to_digit(16)?)
    })
}

/// The bytes of a data field. As by cansend, one `.` before a byte or at the end is passed over.
fn data(text: &[u8]) -> Result<Vec<u8>, String> {
    let mut digits = Vec::with_capacity(text.len());
    let mut rest = text;
    while !rest.is_empty() {
        rest = rest.strip_prefix(b".").unwrap_or(rest);
        let (byte, behind) = rest.split_at(rest.len().min(2));
        digits.extend(byte);
        rest = behind;
    }
    hex::decode(&digits).map_err(|what| format!("the frame's data: {what}"))
}

/// A text for an error; of a long one the front.
fn quoted(text: &[u8]) -> String {
    const LONG: usize = 20;
    match text.get(..LONG) {
        Some(front) if front != text => format!("'{}..'", front.escape_ascii()),
        _ => format!("'{}'", text.escape_ascii()),
    }
}

impl fmt::Display for Identifier {
    fn fmt(&self, f: &mut fmt::Formatter) -> fmt::Result {
        write!(f, "{:0digits$X}", self.number, digits = self.digits)
    }
}

impl fmt::Display for Frame {
    fn fmt(&self, f: &mut fmt::Formatter) -> fmt::Result {
        let data = hex::encode(&self.data).to_uppercase();
        write!(f, "{}##{:X}{data}", self.identifier, self.flags)
    }
}
