//! The selftest's stored captures.

use crate::selftest::{check, Check};
use tikhoplav::capture_vectors::{Capture, Stored, NESTED, SAMPLE};
use tikhoplav::sizes::{FRAME_MESSAGE_MAX, KEY_SIZE};
use tikhoplav::vectors::counting;
use tikhoplav::{captures, frames, hex};

pub const HEADING: &str = "\
stored captures, the sample of one frame and one with groups, under the key 00 01 02 .., edition 1
  They are not published. The independent implementation of the source tree made the second.
";

pub fn all() -> Vec<Check> {
    [SAMPLE, NESTED].iter().flat_map(capture).collect()
}

fn capture(stored: &Capture) -> Vec<Check> {
    let bytes = hex::decode(stored.hex.as_bytes()).expect("stored in hex");
    let count = stored.frames.len();
    let mut checks = vec![check(
        format!("{}: the count of frames, {count}", stored.name),
        captures::frames(&bytes) == count as i64,
    )];
    for (number, frame) in stored.frames.iter().enumerate() {
        checks.extend(of_frame(stored.name, &bytes, number as u64, frame));
    }
    checks.push(check(
        format!("{}: a frame past the last refused with 17", stored.name),
        answers(&bytes, count as u64) == (-17, -17),
    ));
    let longer = [&bytes[..], &[0]].concat();
    for (what, damaged) in [
        ("cut by a byte", &bytes[..bytes.len() - 1]),
        ("with a byte more", &longer),
    ] {
        checks.push(check(
            format!("{}: {what} refused with 16", stored.name),
            captures::frames(damaged) == -16 && answers(damaged, 0) == (-16, -16),
        ));
    }
    checks
}

/// Place and length of a frame's body.
fn answers(capture: &[u8], number: u64) -> (i64, i64) {
    (
        captures::frame(capture, number),
        captures::frame_size(capture, number),
    )
}

fn of_frame(name: &str, capture: &[u8], number: u64, frame: &Stored) -> Vec<Check> {
    let found = answers(capture, number);
    let body = &capture[frame.place..frame.place + frame.size];
    let what = match frame.read {
        Ok(_) => "opened".to_string(),
        Err(refusal) => format!("refused with {refusal}"),
    };
    vec![
        check(
            format!("{name}: frame {number} where it is"),
            found == (frame.place as i64, frame.size as i64),
        ),
        check(
            format!("{name}: frame {number} {what}"),
            read(body) == frame.read.map(str::to_string),
        ),
    ]
}

/// The message in hex, or the number of the refusal.
fn read(body: &[u8]) -> Result<String, u8> {
    let parts = captures::parts(body);
    let mut out = [0; FRAME_MESSAGE_MAX];
    let answer = frames::read(
        Some(1),
        &counting(KEY_SIZE),
        parts.nonce,
        parts.identifier,
        parts.code,
        parts.data,
        &mut out,
    );
    match usize::try_from(answer) {
        Ok(count) => Ok(hex::encode(&out[..count])),
        Err(_) => Err(answer.unsigned_abs() as u8),
    }
}
