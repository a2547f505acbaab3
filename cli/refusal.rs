//! A refusal in words.

use crate::definition::Definition;
use crate::inputs::{Cipher, Inputs, Secrets, Tagged};
use crate::notation::{Frame, Identifier};
use tikhoplav::archive::Call;
use tikhoplav::frames;
use tikhoplav::sizes::{grain128a_tag_size, GRAIN128A_TAG_BITS_MAX};
use tikhoplav::sizes::{AD_MAX, FRAME_MESSAGE_MAX, IDENTIFIER_MAX, KEY_SIZE};
use tikhoplav::sizes::{CAPTURE_DEPTH_MAX, CAPTURE_MAX};
use tikhoplav::sizes::{GRAINV1_KEY_SIZE, GRAINV1_NONCE_SIZE};
use tikhoplav::sizes::{MESSAGE_MAX, NONCE_SIZE, SEALED_MAX, SIGNAL_WIDTH_MAX, TAG_SIZE};

/// The count of entries that a section begins with.
const COUNT_SIZE: usize = 2;

const WRONG_TAG: &str = "the tag is wrong: the key, the nonce, the associated data or the sealed \
    input is not as it was sealed";

const WRONG_TAG_OF_FRAME: &str = "the tag is wrong: the key, the nonce, the identifier, the \
    length code or the data field is not as it was sealed";

const WRONG_TAG_OF_GRAIN128A: &str =
    "the tag is wrong: the key, the nonce, the number of tag bits \
    or the sealed input is not as it was sealed";

/// Zeros where a key should be, as a key that was never set.
const BLANK_KEY: &str = "the key is 16 zero bytes, which anybody can guess";

const MAKE_A_KEY: &str = "seal with a random one ('head -c 16 /dev/urandom >lab.key' makes one, \
    for --key-file lab.key)";

const TRUE_KEY: &str = "the key that it was sealed with; what was sealed with zeros opens with \
    the version that sealed it, one before 3.0.0";

const TRUE_KEY_OF_FRAME: &str = "read the frame with the key that it was sealed with";

const TRUE_KEY_OF_CAPTURE: &str = "open the capture with the key that its frames were sealed with";

const BROKEN_CAPTURE: &str =
    "the layout of the capture is broken: a count, an entry, or a frame's \
    identifier, length code or length is not what it must be";

const TRUE_KEY_OF_GRAIN128A: &str = "open with the key that it was sealed with";

const KEY_OF_CRYPT: &str = "encipher with a random one ('head -c 16 /dev/urandom >lab.key' makes \
    one, for --key-file lab.key), decipher with the key that it was enciphered with";

const NONCE_OF_SEALING: &str =
    "bit 0 of the nonce, the top bit of its first byte, is 0, and must be \
    1 for seal and open (crypt takes the others)";

const NONCE_OF_CRYPT: &str =
    "bit 0 of the nonce, the top bit of its first byte, is 1, and must be 0 \
    for crypt (seal and open take the others)";

const OUTPUT_TOO_SHORT: &str = "the output is too short";

/// Such versions coded an AD length of 128 to 255 in another way.
const SEALED_BEFORE: &str =
    "a version before 2.0.0 sealed it: what those sealed with associated data \
    of 128 to 255 bytes no longer opens";

/// What is wrong with the inputs of `seal` or `open` with Grain-128AEAD, where the archive refused
/// them with this number.
pub fn sentence(call: Call, inputs: &Inputs, number: u8) -> String {
    let (data, limit, key) = match call {
        Call::Seal => ("message", MESSAGE_MAX, MAKE_A_KEY.to_string()),
        Call::Open => ("sealed input", SEALED_MAX, format!("open with {TRUE_KEY}")),
    };
    match number {
        3 => too_long("associated data", &inputs.ad, AD_MAX),
        4 => too_long(data, &inputs.data, limit),
        5 => too_short(&inputs.data, TAG_SIZE),
        7 => wrong_tag(&inputs.cipher, inputs.ad.len()),
        _ => of_cipher(&inputs.cipher, &key, number),
    }
}

/// What is wrong with the inputs of `seal` or `open` with Grain-128a.
pub fn of_grain128a(call: Call, inputs: &Tagged, number: u8) -> String {
    let tag_size = grain128a_tag_size(inputs.tag_bits.value());
    let (data, limit, key) = match call {
        Call::Seal => ("message", MESSAGE_MAX, MAKE_A_KEY),
        Call::Open => (
            "sealed input",
            MESSAGE_MAX + tag_size,
            TRUE_KEY_OF_GRAIN128A,
        ),
    };
    match number {
        4 => too_long(data, &inputs.data, limit),
        5 => too_short(&inputs.data, tag_size),
        7 => WRONG_TAG_OF_GRAIN128A.to_string(),
        19 => NONCE_OF_SEALING.to_string(),
        20 => format!(
            "the tag is to have {} bits, and must have 1 to {GRAIN128A_TAG_BITS_MAX}",
            inputs.tag_bits
        ),
        _ => of_any(&inputs.secrets, key, number),
    }
}

/// What is wrong with the inputs of `crypt` with Grain-128a.
pub fn of_crypt(secrets: &Secrets, message: &[u8], number: u8) -> String {
    match number {
        4 => too_long("message", message, MESSAGE_MAX),
        19 => NONCE_OF_CRYPT.to_string(),
        _ => of_any(secrets, KEY_OF_CRYPT, number),
    }
}

/// What is wrong with the inputs of `crypt` with Grain v1.
pub fn of_grainv1(secrets: &Secrets, message: &[u8], number: u8) -> String {
    let wrong_size =
        |what, bytes, size| format!("{}, and must be {size} for grain-v1", is(what, bytes));
    match number {
        1 => wrong_size("key", &secrets.key, GRAINV1_KEY_SIZE),
        2 => wrong_size("nonce", &secrets.nonce, GRAINV1_NONCE_SIZE),
        4 => too_long("message", message, MESSAGE_MAX),
        6 => OUTPUT_TOO_SHORT.to_string(),
        _ => unreachable!("the header names no such refusal {number}"),
    }
}

/// What is wrong with the inputs of `check`. How much too long they are is not known, since they
/// are not read further. An input too short to have a tag is given whole for it.
pub fn of_checking(cipher: &Cipher, ad_len: usize, tag: &[u8], number: u8) -> String {
    match number {
        3 => format!("the associated data is over {AD_MAX} bytes, and may be at most that"),
        4 => format!("the sealed input is over {SEALED_MAX} bytes, and may be at most that"),
        5 => too_short(tag, TAG_SIZE),
        7 => wrong_tag(cipher, ad_len),
        13 => "the call is out of turn in its stream".to_string(),
        14 => "the state is none that a stream can have".to_string(),
        _ => of_cipher(cipher, &format!("check with {TRUE_KEY}"), number),
    }
}

/// What is wrong with the inputs of `frame make`.
pub fn of_making(cipher: &Cipher, identifier: &Identifier, message: &[u8], number: u8) -> String {
    match number {
        8 => too_large(identifier),
        9 => format!(
            "{}, and a frame holds at most {FRAME_MESSAGE_MAX}",
            is("message", message)
        ),
        _ => of_cipher(cipher, MAKE_A_KEY, number),
    }
}

/// What is wrong with the inputs of `frame read`.
pub fn of_reading(cipher: &Cipher, frame: &Frame, number: u8) -> String {
    match number {
        7 => format!("{WRONG_TAG_OF_FRAME}{}", or_other_edition(cipher)),
        8 => too_large(&frame.identifier),
        10 => format!(
            "{} are no coded length of CAN FD (0 to 8, 12, 16, 20, 24, 32, 48 or 64)",
            count(frame.data.len())
        ),
        11 => wrong_message_length(&frame.data),
        12 => filler_not_zero(&frame.data),
        _ => of_cipher(cipher, TRUE_KEY_OF_FRAME, number),
    }
}

/// What is wrong with the edition or the key of `capture open`.
pub fn of_opening(cipher: &Cipher, number: u8) -> String {
    of_cipher(cipher, TRUE_KEY_OF_CAPTURE, number)
}

/// What is wrong with a capture, or with the number of a frame.
pub fn of_capture(capture: &[u8], number: u8) -> String {
    match number {
        16 if capture.len() > CAPTURE_MAX => too_long("capture", capture, CAPTURE_MAX),
        16 if capture.len() < COUNT_SIZE => format!(
            "{}, and its count alone is {COUNT_SIZE}",
            is("capture", capture)
        ),
        16 => BROKEN_CAPTURE.to_string(),
        17 => "the number is past the last frame of the capture".to_string(),
        18 => format!(
            "a group of the capture would be at depth {}, and the deepest may be at {CAPTURE_DEPTH_MAX}",
            CAPTURE_DEPTH_MAX + 1
        ),
        _ => unreachable!("the header names no such refusal {number}"),
    }
}

/// What is wrong with a signal. `room` says how many bits the message has.
pub fn of_signal(signal: &Definition, room: &str, number: u8) -> String {
    match number {
        21 if !(1..=SIGNAL_WIDTH_MAX).contains(&signal.width.value()) => format!(
            "the width is {}, and must be 1 to {SIGNAL_WIDTH_MAX}",
            signal.width
        ),
        21 => {
            let end = u64::from(signal.start) + u64::from(signal.width.value());
            format!(
                "the signal ends with bit {}, counted from 0, and {room} bits",
                end - 1
            )
        }
        22 => wrong_numbers(signal),
        _ => unreachable!("the header names no such refusal {number}"),
    }
}

fn wrong_numbers(signal: &Definition) -> String {
    let Definition {
        scale,
        offset,
        low,
        high,
        ..
    } = signal;
    let named = [
        ("scale", scale),
        ("offset", offset),
        ("low limit", low),
        ("high limit", high),
    ];
    match named.iter().find(|(_, real)| !real.value.is_finite()) {
        Some((name, real)) => format!("the {name} is {real}, which is no finite double"),
        None => format!("the low limit is {low}, above the high limit, {high}"),
    }
}

/// The refusals that all calls of Grain-128AEAD share.
fn of_cipher(cipher: &Cipher, key: &str, number: u8) -> String {
    match number {
        23 => format!("the edition is {}, and must be 1 or 2", cipher.edition),
        _ => of_any(&cipher.secrets, key, number),
    }
}

/// The refusals that all calls share. `key` says what to do about a blank one.
fn of_any(secrets: &Secrets, key: &str, number: u8) -> String {
    match number {
        1 => format!("{}, and must be {KEY_SIZE}", is("key", &secrets.key)),
        2 => format!("{}, and must be {NONCE_SIZE}", is("nonce", &secrets.nonce)),
        6 => OUTPUT_TOO_SHORT.to_string(),
        15 => format!("{BLANK_KEY}: {key}"),
        _ => unreachable!("the header names no such refusal {number}"),
    }
}

fn too_long(what: &str, bytes: &[u8], limit: usize) -> String {
    format!("{}, and may be at most {limit}", is(what, bytes))
}

fn too_short(sealed: &[u8], tag_size: usize) -> String {
    format!(
        "{}, and its tag alone is {tag_size}",
        is("sealed input", sealed)
    )
}

/// The versions before 2.0.0 have edition 1 alone.
fn wrong_tag(cipher: &Cipher, ad_len: usize) -> String {
    let before = match (cipher.edition.value(), ad_len) {
        (1, 128..=255) => format!(", or {SEALED_BEFORE}"),
        _ => String::new(),
    };
    format!("{WRONG_TAG}{before}{}", or_other_edition(cipher))
}

fn or_other_edition(cipher: &Cipher) -> String {
    let other = if cipher.edition.value() == 1 { 2 } else { 1 };
    format!(", or it was sealed under edition {other} (--edition {other})")
}

pub fn too_large(identifier: &Identifier) -> String {
    format!("the identifier is {identifier}, and may be at most {IDENTIFIER_MAX:X}")
}

fn wrong_message_length(data: &[u8]) -> String {
    let Some(&said) = data.first() else {
        return "the data field is empty, and has no length byte".to_string();
    };
    let says = format!("the length byte says {said}");
    if usize::from(said) > FRAME_MESSAGE_MAX {
        return format!("{says}, and a frame holds at most {FRAME_MESSAGE_MAX}");
    }
    let code = frames::length_code(1 + usize::from(said) + TAG_SIZE);
    let takes = frames::coded_length(code as u32);
    format!(
        "{says}, which takes {takes} bytes, and {}",
        is("data field", data)
    )
}

/// Places count from 1.
fn filler_not_zero(data: &[u8]) -> String {
    let message_len = usize::from(data[0]);
    let mut filler = data.iter().zip(1..).skip(1 + message_len + TAG_SIZE);
    let (byte, place) = filler
        .find(|(&byte, _)| byte != 0)
        .expect("a filler byte is not zero");
    format!("byte {place} of the data field is {byte:02X}, and filler must be 00")
}

/// The size of an input in words.
fn is(what: &str, bytes: &[u8]) -> String {
    format!("the {what} is {}", count(bytes.len()))
}

/// A count of bytes in words.
pub fn count(bytes: usize) -> String {
    match bytes {
        1 => "1 byte".to_string(),
        _ => format!("{bytes} bytes"),
    }
}
