//! How many entries a section has.

use super::judge::Walked;
use crate::judge::{Judge, Verdict};
use model::capture_writer::{write, Frame, Item, Written};

/// Around the limit, and such that are below it where they are cut to eight bits.
const COUNTS: [usize; 9] = [1, 253, 254, 255, 256, 257, 300, 511, 512];
const MOST: usize = 255;

/// Frames, empty groups, and both by turns, in the outermost section.
pub fn counts(judge: &mut Judge) -> Verdict {
    for count in COUNTS {
        for items in of_each_kind(count) {
            let written = write(&items);
            judge.expect_capture(&written.bytes, &expected(&written, count))?;
        }
    }
    Ok(())
}

/// The same in a group of each depth, with a frame before it and one behind it. At depth 6 the
/// groups among them are too deep, unless they are too many.
pub fn in_groups(judge: &mut Judge) -> Verdict {
    let frame = || Item::Frame(Frame::blank(1));
    for count in COUNTS {
        for items in of_each_kind(count) {
            let has_groups = items.contains(&Item::Group(vec![]));
            let mut nested = Item::Group(items);
            for depth in 2..=6 {
                let written = write(&[frame(), nested.clone(), frame()]);
                let expected = match depth {
                    6 if has_groups && count <= MOST => Err(18),
                    _ => expected(&written, count),
                };
                judge.expect_capture(&written.bytes, &expected)?;
                nested = Item::Group(vec![nested]);
            }
        }
    }
    Ok(())
}

fn of_each_kind(count: usize) -> [Vec<Item>; 3] {
    let frame = Item::Frame(Frame::blank(0));
    let group = Item::Group(vec![]);
    let by_turns = [frame.clone(), group.clone()];
    [
        vec![frame; count],
        vec![group; count],
        by_turns.into_iter().cycle().take(count).collect(),
    ]
}

fn expected(written: &Written, count: usize) -> Walked {
    if count > MOST {
        return Err(16);
    }
    Ok(written.frames.clone())
}

/// A count of every value before entries of zeros, where there is room for some, all and more.
pub fn too_many_said(judge: &mut Judge) -> Verdict {
    for count in 1..=u16::MAX {
        let head = 2 + 8 * usize::from(count);
        for len in [2, 10, head.min(4000) - 1, head.min(4000)] {
            let mut capture = vec![0; len];
            capture[..2].copy_from_slice(&count.to_be_bytes());
            judge.expect_frames(&capture, &Err(16), 0..1)?;
        }
    }
    Ok(())
}
