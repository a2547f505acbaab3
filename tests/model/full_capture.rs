//! Captures of a given length, full of frames.

use crate::capture_writer::{section_size, Frame, Item};
use crate::frames::coded_length;

const MOST_ENTRIES: usize = 255;

/// What an entry and a frame without data take, and an entry and a section without entries.
const FRAME_SIZE: usize = 8 + 17;
const GROUP_SIZE: usize = 8 + 2;

/// A capture of exactly `len` bytes, 100 or more: frames without data, in groups of as many as a
/// section has. So that the length comes out, a few of the last frames have data.
pub fn full(len: usize) -> Vec<Item> {
    let mut groups = Vec::new();
    let mut left = len - section_size(&[]);
    while left >= GROUP_SIZE + FRAME_SIZE {
        let count = MOST_ENTRIES.min((left - GROUP_SIZE) / FRAME_SIZE);
        groups.push(vec![Frame::blank(0); count]);
        left -= GROUP_SIZE + count * FRAME_SIZE;
    }
    let mut last = groups.iter_mut().flatten().rev();
    while left > 0 {
        let code = largest_code(left);
        *last.next().expect("a frame for each rest") = Frame::blank(code);
        left -= coded_length(code).expect("a length code");
    }
    groups
        .into_iter()
        .map(|group| Item::Group(group.into_iter().map(Item::Frame).collect()))
        .collect()
}

/// The code of the longest data of at most `len` bytes.
fn largest_code(len: usize) -> u32 {
    let fits = |code: &u32| coded_length(*code).is_ok_and(|bytes| bytes <= len);
    (0..=15).rev().find(fits).expect("code 0 takes no bytes")
}
