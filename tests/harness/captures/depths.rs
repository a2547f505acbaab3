//! Groups in groups.

use super::judge::Walked;
use super::DEEPEST;
use crate::judge::{Judge, Verdict};
use model::capture_writer::{write, Frame, Item, Written};

const TRIED: usize = 40;

/// Nothing but groups, the innermost without entries or with a frame.
pub fn chains(judge: &mut Judge) -> Verdict {
    for innermost in [vec![], vec![Item::Frame(Frame::blank(0))]] {
        let mut items = innermost;
        for depth in 1..=TRIED {
            let written = write(&items);
            judge.expect_capture(&written.bytes, &expected(&written, depth))?;
            items = vec![Item::Group(items)];
        }
    }
    Ok(())
}

/// On each level a group and frames before it, behind it, or both.
pub fn with_frames(judge: &mut Judge) -> Verdict {
    for [before, behind] in [[1, 0], [0, 1], [1, 1], [3, 2], [0, 0]] {
        let frames = |count, code| vec![Item::Frame(Frame::blank(code)); count];
        let mut items = vec![];
        for depth in 1..=TRIED {
            let written = write(&items);
            judge.expect_capture(&written.bytes, &expected(&written, depth))?;
            let group = vec![Item::Group(items)];
            items = [frames(before, 2), group, frames(behind, 3)].concat();
        }
    }
    Ok(())
}

fn expected(written: &Written, depth: usize) -> Walked {
    if depth > DEEPEST {
        return Err(18);
    }
    Ok(written.frames.clone())
}
