//! The bodies of frames: identifier, length code, length.

use super::trees::leaves;
use crate::frames::LENGTHS;
use crate::judge::{Judge, Verdict};
use model::capture_writer::{write, Frame, Item};
use model::captures::Body;

const RANDOM_TRIALS: usize = 2000;

/// Every code with every length of the body around those that a code means.
pub fn codes(judge: &mut Judge) -> Verdict {
    for code in 0..=u8::MAX {
        for size in 0..=17 + 70 {
            let mut body = judge.random.bytes(size);
            if let Some(top) = body.get_mut(0) {
                *top &= 0x1f;
            }
            if let Some(byte) = body.get_mut(4) {
                *byte = code;
            }
            let coded = LENGTHS.get(usize::from(code));
            let sound = coded.is_some_and(|data| size == 17 + data);
            alone(judge, body, sound)?;
        }
    }
    Ok(())
}

/// Those with a single bit and all but one, and those around 2^29.
pub fn identifiers(judge: &mut Judge) -> Verdict {
    let bits = (0..32).flat_map(|bit| [1 << bit, !(1 << bit)]);
    let borders = (0..5).map(|low| (1 << 29) - 2 + low);
    for identifier in bits.chain(borders).chain([0, u32::MAX]) {
        for code in [0, 9, 15] {
            let frame = Frame {
                identifier,
                ..Frame::blank(code)
            };
            let written = write(&[Item::Frame(frame)]);
            let expected = match identifier {
                0..=0x1fff_ffff => Ok(written.frames),
                _ => Err(16),
            };
            judge.expect_capture(&written.bytes, &expected)?;
        }
    }
    Ok(())
}

/// A capture of one entry, for a frame.
fn alone(judge: &mut Judge, body: Vec<u8>, sound: bool) -> Verdict {
    let size = body.len();
    let written = write(&[Item::Body(0, body)]);
    let expected = if sound {
        Ok(vec![Body { place: 10, size }])
    } else {
        Err(16)
    };
    judge.expect_capture(&written.bytes, &expected)
}

/// In a random capture the body of one frame is replaced: by one cut, lengthened or empty, by one
/// with another code, by one with too large an identifier. Whatever the frames around it are, the
/// capture is refused.
pub fn among_others(judge: &mut Judge) -> Verdict {
    for _ in 0..RANDOM_TRIALS {
        let mut items = judge.random.items(6, 300);
        let frames = leaves(&mut items);
        if frames.is_empty() {
            continue;
        }
        let chosen = judge.random.below(frames.len());
        for wrong in 0..5 {
            let mut damaged = items.clone();
            let mut frames = leaves(&mut damaged);
            let mut body = frames[chosen].body();
            match wrong {
                0 => body.truncate(judge.random.below(body.len())),
                1 => body.push(0),
                2 => body.clear(),
                3 => body[4] ^= judge.random.pick(&[1, 2, 4, 8, 16, 32, 64, 128]),
                _ => body[0] |= judge.random.pick(&[0x20, 0x40, 0x80, 0xe0]),
            }
            *frames[chosen] = Item::Body(0, body);
            judge.expect_capture(&write(&damaged).bytes, &Err(16))?;
        }
    }
    Ok(())
}
