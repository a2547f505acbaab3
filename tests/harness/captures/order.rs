//! A group too deep and another break: the first in walking order counts, and a section's entries
//! come before its bodies.

use super::DEEPEST;
use crate::judge::{Judge, Verdict};
use model::capture_writer::{write, Field, Frame, Item};

/// Bodies with a break of layout, by their kinds.
fn breaks() -> Vec<Item> {
    let frame = Item::Frame(Frame::blank(9)).body();
    let group = Item::Group(vec![Item::Frame(Frame::blank(0)), Item::Group(vec![])]).body();
    let with = |bytes: &[u8], place: usize, value: u8| {
        let mut damaged = bytes.to_vec();
        damaged[place] = value;
        damaged
    };
    vec![
        Item::Body(0, vec![]),
        Item::Body(0, frame[..16].to_vec()),
        Item::Body(0, frame[..28].to_vec()),
        Item::Body(0, with(&frame, 0, 0x20)),
        Item::Body(0, with(&frame, 4, 16)),
        Item::Body(1, vec![]),
        Item::Body(1, vec![0]),
        Item::Body(1, vec![0, 0, 0]),
        Item::Body(1, vec![1, 0]),
        Item::Body(1, with(&group, 2, 2)),
        Item::Body(1, with(&group, 9, 0)),
        Item::Body(1, group[..group.len() - 1].to_vec()),
    ]
}

/// A sound frame, and a group of it with an empty group.
fn sound() -> [Vec<Item>; 3] {
    let frame = Item::Frame(Frame::blank(1));
    let group = Item::Group(vec![frame.clone(), Item::Group(vec![])]);
    [vec![], vec![frame.clone()], vec![frame, group]]
}

/// The items in groups, one in the other, so that they are at this depth.
fn at_depth(depth: usize, items: Vec<Item>) -> Vec<Item> {
    (1..depth).fold(items, |items, _| vec![Item::Group(items)])
}

/// A group that would be at depth 7 below items at this depth.
fn too_deep(depth: usize, body: Item) -> Item {
    let mut items = at_depth(DEEPEST + 1 - depth, vec![body]);
    items.pop().expect("one item")
}

/// Where the break stands at a depth; the items at depth 6 are no groups, which would be too deep.
fn stands_at(depth: usize, item: &Item) -> bool {
    depth < DEEPEST || matches!(item, Item::Body(0, _))
}

pub fn before(judge: &mut Judge) -> Verdict {
    at_every_depth(judge, 16, |broken, deep| [broken, deep])
}

pub fn behind(judge: &mut Judge) -> Verdict {
    at_every_depth(judge, 18, |broken, deep| [deep, broken])
}

/// Break and group are at each depth, in this order, with sound items before, between and behind
/// them.
fn at_every_depth(
    judge: &mut Judge,
    expected: u8,
    ordered: impl Fn(Item, Item) -> [Item; 2],
) -> Verdict {
    for depth in 1..=DEEPEST {
        for broken in breaks().into_iter().filter(|item| stands_at(depth, item)) {
            for others in sound() {
                let others = if depth < DEEPEST - 1 { others } else { vec![] };
                let deep = too_deep(depth, Item::Group(vec![]));
                let [first, second] = ordered(broken.clone(), deep);
                let others = &others[..];
                let items = [others, &[first], others, &[second], others].concat();
                let written = write(&at_depth(depth, items));
                judge.expect_capture(&written.bytes, &Err(expected))?;
            }
        }
    }
    Ok(())
}

/// Nothing of a group at depth 7 is looked at.
pub fn inside(judge: &mut Judge) -> Verdict {
    for broken in breaks() {
        let Item::Body(_, bytes) = broken else {
            continue;
        };
        for depth in 1..=DEEPEST {
            let deep = too_deep(depth, Item::Body(1, bytes.clone()));
            let written = write(&at_depth(depth, vec![deep]));
            judge.expect_capture(&written.bytes, &Err(18))?;
        }
    }
    Ok(())
}

/// Count, kind, length and offset of each entry above a group at depth 7 are changed in turn, of the
/// group's own entry and of those beside it too.
pub fn in_entries(judge: &mut Judge) -> Verdict {
    let frame = || Item::Frame(Frame::blank(0));
    let mut items = vec![frame(), Item::Body(1, vec![0, 0]), frame()];
    for _depth in 1..DEEPEST {
        items = vec![frame(), Item::Group(items), frame()];
    }
    let written = write(&items);
    judge.expect_capture(&written.bytes, &Err(18))?;
    let of_entries = [Field::Count, Field::Kind, Field::Length, Field::Offset];
    for (_, body) in written
        .fields
        .iter()
        .filter(|(field, _)| of_entries.contains(field))
    {
        for place in body.place..body.place + body.size {
            let mut damaged = written.bytes.clone();
            damaged[place] ^= 2;
            judge.expect_capture(&damaged, &Err(16))?;
        }
    }
    Ok(())
}
