//! The selftest's stored captures, made anew on the model.

use super::sample::SAMPLE as BYTES;
use crate::judge::{Judge, Verdict};
use model::capture_writer::{write, Frame, Item};
use model::frames::{length_code, make};
use tikhoplav::capture_vectors::{Capture, NESTED, SAMPLE};
use tikhoplav::captures::parts;
use tikhoplav::hex;
use tikhoplav::sizes::{FRAME_MAX, FRAME_MESSAGE_MAX, KEY_SIZE};
use tikhoplav::vectors::counting;

pub fn run(judge: &mut Judge) -> Verdict {
    judge.holds("the sample is stored", bytes(&SAMPLE) == BYTES)?;
    let written = write(&nested());
    judge.holds("a capture with groups", bytes(&NESTED) == written.bytes)?;
    for stored in [SAMPLE, NESTED] {
        frames(judge, &stored)?;
    }
    Ok(())
}

fn bytes(stored: &Capture) -> Vec<u8> {
    hex::decode(stored.hex.as_bytes()).expect("stored in hex")
}

/// Each frame is where it is stored to be, and the model reads it so.
fn frames(judge: &mut Judge, stored: &Capture) -> Verdict {
    let capture = bytes(stored);
    let walked = model::captures::frames(&capture);
    judge.expect_capture(&capture, &walked)?;
    let walked = walked.map_err(|number| format!("{} refused with {number}", stored.name))?;
    let places: Vec<_> = walked.iter().map(|body| (body.place, body.size)).collect();
    let expected = stored.frames.iter().map(|frame| (frame.place, frame.size));
    judge.holds(stored.name, places == expected.collect::<Vec<_>>())?;
    for (body, frame) in walked.iter().zip(stored.frames) {
        let parts = parts(&capture[body.place..body.place + body.size]);
        let message = model::frames::read(
            Some(1),
            &counting(KEY_SIZE),
            parts.nonce,
            parts.identifier,
            parts.code,
            parts.data,
            FRAME_MESSAGE_MAX,
        );
        let same = message.map(|message| hex::encode(&message)) == frame.read.map(str::to_string);
        judge.holds(&format!("{}: {:?}", stored.name, frame.read), same)?;
    }
    Ok(())
}

fn nested() -> Vec<Item> {
    let mut damaged = sealed(0x123, 5, &[0xff]);
    damaged.data[9] ^= 1;
    vec![
        Item::Frame(sealed(0x7e8, 3, &[0x09, 0x60])),
        Item::Group(vec![
            Item::Frame(sealed(0x18da_f110, 4, &[1, 2, 3, 4])),
            Item::Group(vec![Item::Frame(damaged)]),
        ]),
        Item::Group(vec![]),
        Item::Frame(Frame {
            identifier: 0x123,
            data: vec![0x09, 0x60],
            ..Frame::blank(2)
        }),
    ]
}

/// The nonce is zeros and this byte.
fn sealed(identifier: u32, last: u8, message: &[u8]) -> Frame {
    let mut nonce = [0; 12];
    nonce[11] = last;
    let key = counting(KEY_SIZE);
    let data = make(Some(1), &key, &nonce, identifier, message, FRAME_MAX).expect("a legal frame");
    Frame {
        identifier,
        code: length_code(data.len()).expect("a coded length"),
        nonce,
        data,
    }
}
