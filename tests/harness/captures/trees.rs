//! Random captures, nested and wide.

use crate::frames::LENGTHS;
use crate::judge::{Judge, Verdict};
use crate::random::Random;
use model::capture_writer::{section_size, write, Frame, Item};
use tikhoplav::captures::parts;
use tikhoplav::sizes::CAPTURE_MAX;

const DEEP_TRIALS: usize = 8000;
/// How many captures of at most which size.
const SIZES: [(usize, usize); 4] = [(12_000, 400), (1000, 3000), (60, 20_000), (10, CAPTURE_MAX)];

impl Random {
    /// The items of a section of at most `room` bytes, with sections below it down to `levels` in
    /// all.
    pub fn items(&mut self, levels: usize, room: usize) -> Vec<Item> {
        let most = self.pick(&[0, 1, 2, 3, 5, 9, 20, 255]);
        let groups_of_three = self.pick(&[0, 1, 1, 2, 2]);
        let mut items = Vec::new();
        let mut left = room - section_size(&[]);
        while items.len() < most {
            let item = if levels > 1 && left >= 8 + 2 && self.below(3) < groups_of_three {
                let least = 2 + self.below(left - 8 - 1);
                let room = self.pick(&[least, left - 8]);
                Item::Group(self.items(levels - 1, room))
            } else {
                Item::Frame(self.frame())
            };
            if 8 + item.size() > left {
                break;
            }
            left -= 8 + item.size();
            items.push(item);
        }
        items
    }

    fn frame(&mut self) -> Frame {
        let codes = self.pick(&[3, 16]);
        let code = self.below(codes) as u32;
        let bytes = self.bytes(12);
        let mut nonce = [0; 12];
        nonce.copy_from_slice(&bytes);
        Frame {
            identifier: self.number() as u32 >> 3,
            code,
            nonce,
            data: self.bytes(LENGTHS[code as usize]),
        }
    }
}

/// The frames among the items and in their groups, in walking order.
pub fn leaves(items: &mut [Item]) -> Vec<&mut Item> {
    let mut found = Vec::new();
    for item in items {
        match item {
            Item::Group(items) => found.extend(leaves(items)),
            _ => found.push(item),
        }
    }
    found
}

/// Every frame that was written is found, each once and in this order, with all its parts.
pub fn sound(judge: &mut Judge) -> Verdict {
    for (trials, room) in SIZES {
        for _ in 0..trials {
            let mut items = judge.random.items(6, room);
            let written = write(&items);
            judge.expect_capture(&written.bytes, &Ok(written.frames.clone()))?;
            for (item, body) in leaves(&mut items).into_iter().zip(&written.frames) {
                let Item::Frame(frame) = item else {
                    unreachable!("a sound capture");
                };
                let parts = parts(&written.bytes[body.place..body.place + body.size]);
                let same = (parts.identifier, parts.code) == (frame.identifier, frame.code)
                    && (parts.nonce, parts.data) == (&frame.nonce[..], &frame.data[..]);
                judge.holds("the parts of a frame", same)?;
            }
        }
    }
    Ok(())
}

/// With sections down to depth 9: all else is sound, so that a group at depth 7 is what counts.
pub fn too_deep(judge: &mut Judge) -> Verdict {
    for _ in 0..DEEP_TRIALS {
        let items = judge.random.items(9, 2000);
        let written = write(&items);
        let expected = match depth(&items) {
            ..=6 => Ok(written.frames),
            _ => Err(18),
        };
        judge.expect_capture(&written.bytes, &expected)?;
    }
    Ok(())
}

/// How deep the sections go, the outermost being depth 1.
fn depth(items: &[Item]) -> usize {
    let below = items.iter().map(|item| match item {
        Item::Group(items) => depth(items),
        _ => 0,
    });
    1 + below.max().unwrap_or(0)
}
