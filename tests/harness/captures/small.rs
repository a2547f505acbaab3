//! All captures of few bytes and of few items.

use crate::judge::{Judge, Verdict};
use model::capture_writer::{write, Frame, Item};

/// Without entries a section ends after the count; every other one is longer.
pub fn bytes(judge: &mut Judge) -> Verdict {
    judge.expect_capture(&[], &Err(16))?;
    for first in 0..=u8::MAX {
        judge.expect_capture(&[first], &Err(16))?;
        for second in 0..=u8::MAX {
            let expected = match [first, second] {
                [0, 0] => Ok(vec![]),
                _ => Err(16),
            };
            judge.expect_capture(&[first, second], &expected)?;
        }
    }
    Ok(())
}

/// Frames, empty groups and groups of one, in every order.
pub fn items(judge: &mut Judge) -> Verdict {
    let frame = |code| Item::Frame(Frame::blank(code));
    let choices = [
        frame(0),
        frame(9),
        Item::Group(vec![]),
        Item::Group(vec![frame(1)]),
        Item::Group(vec![Item::Group(vec![])]),
    ];
    let mut sequences: Vec<Vec<Item>> = vec![vec![]];
    for _ in 0..=4 {
        for items in &sequences {
            let written = write(items);
            judge.expect_capture(&written.bytes, &Ok(written.frames))?;
        }
        sequences = sequences
            .iter()
            .flat_map(|items| choices.iter().map(move |item| longer(items, item)))
            .collect();
    }
    Ok(())
}

fn longer(items: &[Item], item: &Item) -> Vec<Item> {
    let mut longer = items.to_vec();
    longer.push(item.clone());
    longer
}
