//! Bytes as hex digits and back.

pub fn encode(bytes: &[u8]) -> String {
    bytes.iter().map(|byte| format!("{byte:02x}")).collect()
}

/// The bytes that the digits spell. White space is passed over. The error says what is wrong with
/// the text.
pub fn decode(text: &[u8]) -> Result<Vec<u8>, String> {
    let mut decoder = Decoder::default();
    let bytes = decoder.decode(text)?;
    decoder.end()?;
    Ok(bytes)
}

/// Decodes a text that comes in pieces, cut anywhere.
#[derive(Default)]
pub struct Decoder {
    place: usize,
    digits: usize,
    /// The first digit of a byte whose second is still to come.
    first: Option<u8>,
}

impl Decoder {
    /// The bytes that this piece completes.
    pub fn decode(&mut self, piece: &[u8]) -> Result<Vec<u8>, String> {
        let mut bytes = Vec::with_capacity(piece.len() / 2 + 1);
        for &byte in piece {
            self.place += 1;
            match char::from(byte).to_digit(16) {
                Some(digit) => bytes.extend(self.take(digit as u8)),
                None if byte.is_ascii_whitespace() => {}
                None => {
                    let (shown, place) = (byte.escape_ascii(), self.place);
                    return Err(format!("'{shown}' at place {place} is no hex digit"));
                }
            }
        }
        Ok(bytes)
    }

    /// The byte that a digit completes, if it is the second of one.
    fn take(&mut self, digit: u8) -> Option<u8> {
        self.digits += 1;
        let Some(first) = self.first.take() else {
            self.first = Some(digit);
            return None;
        };
        Some((first << 4) | digit)
    }

    /// The text ends here.
    pub fn end(&self) -> Result<(), String> {
        match self.first {
            None => Ok(()),
            Some(_) => Err(format!("{} hex digits, and a byte takes two", self.digits)),
        }
    }
}
