//! The sample of document 02: one frame without data, under identifier 0x123.

use crate::judge::{Judge, Verdict};
use model::captures::Body;
use tikhoplav::captures::parts;

pub const SAMPLE: [u8; 27] = [
    0x00, 0x01, 0x00, 0x00, 0x00, 0x11, 0x00, 0x00, 0x00, 0x0a, 0x00, 0x00, 0x01, 0x23, 0x00, 0, 0,
    0, 0, 0, 0, 0, 0, 0, 0, 0, 0,
];

const FRAME: Body = Body {
    place: 10,
    size: 17,
};

pub fn whole(judge: &mut Judge) -> Verdict {
    judge.expect_capture(&SAMPLE, &Ok(vec![FRAME]))?;
    let parts = parts(&SAMPLE[FRAME.place..]);
    judge.holds("the identifier is 0x123", parts.identifier == 0x123)?;
    judge.holds("the length code is 0", parts.code == 0)?;
    judge.holds("the nonce is zeros", parts.nonce == [0; 12])?;
    judge.holds("there is no data", parts.data.is_empty())
}

/// At every byte, and by up to 300 bytes, zeros and others.
pub fn cut_and_lengthened(judge: &mut Judge) -> Verdict {
    for len in 0..SAMPLE.len() {
        judge.expect_capture(&SAMPLE[..len], &Err(16))?;
    }
    for more in 1..=300 {
        for bytes in [vec![0; more], judge.random.bytes(more)] {
            judge.expect_capture(&[&SAMPLE[..], &bytes].concat(), &Err(16))?;
        }
    }
    Ok(())
}

/// Each byte in turn has each value. The identifier has 29 bits, and the nonce may be any.
pub fn every_byte(judge: &mut Judge) -> Verdict {
    for place in 0..SAMPLE.len() {
        for value in 0..=u8::MAX {
            let mut capture = SAMPLE;
            capture[place] = value;
            let sound = match place {
                10 => value < 0x20,
                11..=13 | 15.. => true,
                _ => value == SAMPLE[place],
            };
            let expected = if sound { Ok(vec![FRAME]) } else { Err(16) };
            judge.expect_capture(&capture, &expected)?;
        }
    }
    Ok(())
}

/// Numbers whose lower bits are 0, the number of the one frame.
pub fn numbers(judge: &mut Judge) -> Verdict {
    let powers = (0..u64::BITS).map(|bit| 1 << bit);
    judge.expect_frames(&SAMPLE, &Ok(vec![FRAME]), powers.clone())?;
    judge.expect_frames(&SAMPLE[..26], &Err(16), powers)
}
