//! Sealed CAN FD frames, and the length codes of their data fields.

use crate::{open, refuse, seal, Edition, KEY_SIZE, NONCE_SIZE, TAG_SIZE};

/// The edition that is meant where none is named.
const UNNAMED: u32 = 1;

/// The byte with the message length.
const LENGTH_SIZE: usize = 1;
const LONGEST: usize = 55;
const IDENTIFIERS: u32 = 1 << 29;

/// The bytes that a length code means, or the number of the refusal.
pub fn coded_length(code: u32) -> Result<usize, u8> {
    match code {
        0..=8 => Ok(code as usize),
        9 => Ok(12),
        10 => Ok(16),
        11 => Ok(20),
        12 => Ok(24),
        13 => Ok(32),
        14 => Ok(48),
        15 => Ok(64),
        _ => Err(10),
    }
}

/// The smallest code that holds so many bytes, or the number of the refusal.
pub fn length_code(length: usize) -> Result<u32, u8> {
    let holds = |&code: &u32| coded_length(code).is_ok_and(|bytes| bytes >= length);
    (0..=15).find(holds).ok_or(10)
}

/// The code of the field that holds a message of this length.
fn code_for(message_len: usize) -> Result<u32, u8> {
    length_code(LENGTH_SIZE + message_len + TAG_SIZE)
}

/// The identifier in four bytes, high first, and the length code in one.
pub fn associated_data(identifier: u32, code: u32) -> [u8; 5] {
    let byte = |number: u32| (number % 256) as u8;
    [
        byte(identifier >> 24),
        byte(identifier >> 16),
        byte(identifier >> 8),
        byte(identifier),
        byte(code),
    ]
}

/// The data field, or the number of the refusal, where the output has `room` bytes.
pub fn make(
    edition: Option<u32>,
    key: &[u8],
    nonce: &[u8],
    identifier: u32,
    message: &[u8],
    room: usize,
) -> Result<Vec<u8>, u8> {
    let edition = edition.unwrap_or(UNNAMED);
    Edition::numbered(edition)?;
    let code = code_for(message.len());
    let size = code.and_then(coded_length);
    refuse(&[
        (1, key.len() != KEY_SIZE),
        (2, nonce.len() != NONCE_SIZE),
        (15, key == [0; KEY_SIZE]),
        (8, identifier >= IDENTIFIERS),
        (9, message.len() > LONGEST),
        (6, size.is_ok_and(|size| room < size)),
    ])?;
    let ad = associated_data(identifier, code?);
    let mut field = vec![message.len() as u8];
    field.extend(seal(edition, key, nonce, &ad, message, usize::MAX)?);
    field.resize(size?, 0);
    Ok(field)
}

/// The message, or the number of the refusal, where the output has `room` bytes.
pub fn read(
    edition: Option<u32>,
    key: &[u8],
    nonce: &[u8],
    identifier: u32,
    code: u32,
    data: &[u8],
    room: usize,
) -> Result<Vec<u8>, u8> {
    let edition = edition.unwrap_or(UNNAMED);
    Edition::numbered(edition)?;
    refuse(&[
        (1, key.len() != KEY_SIZE),
        (2, nonce.len() != NONCE_SIZE),
        (15, key == [0; KEY_SIZE]),
        (8, identifier >= IDENTIFIERS),
        (10, coded_length(code) != Ok(data.len())),
        (11, data.is_empty()),
    ])?;
    let message_len = usize::from(data[0]);
    refuse(&[
        (11, message_len > LONGEST),
        (11, code_for(message_len) != Ok(code)),
    ])?;
    let (sealed, filler) = data[LENGTH_SIZE..].split_at(message_len + TAG_SIZE);
    refuse(&[
        (12, filler.iter().any(|&byte| byte != 0)),
        (6, room < message_len),
    ])?;
    let ad = associated_data(identifier, code);
    open(edition, key, nonce, &ad, sealed, room)
}
