//! Captures with groups: which frames a capture has, or the number of the refusal.

use crate::frames::coded_length;

const LONGEST: usize = 65_536;
const DEEPEST: usize = 6;
const MOST_ENTRIES: usize = 255;
const COUNT_SIZE: usize = 2;
const ENTRY_SIZE: usize = 8;
const IDENTIFIERS: usize = 1 << 29;
/// Identifier, length code and nonce of a frame.
const HEAD_SIZE: usize = 17;

/// A frame's body: where it begins in the capture, and its length.
#[derive(Clone, Copy, Debug, PartialEq, Eq)]
pub struct Body {
    pub place: usize,
    pub size: usize,
}

#[derive(Clone, Copy)]
enum Kind {
    Frame,
    /// At this depth; the outermost section is one at depth 1.
    Group(usize),
}

/// The frames in walking order. What is still to be walked lies on a stack, the next on top.
pub fn frames(capture: &[u8]) -> Result<Vec<Body>, u8> {
    if capture.len() > LONGEST {
        return Err(16);
    }
    let mut found = Vec::new();
    let whole = Body {
        place: 0,
        size: capture.len(),
    };
    let mut ahead = vec![(Kind::Group(1), whole)];
    while let Some((kind, body)) = ahead.pop() {
        let bytes = &capture[body.place..body.place + body.size];
        match kind {
            Kind::Frame if is_frame(bytes) => found.push(body),
            Kind::Frame => return Err(16),
            Kind::Group(depth) if depth > DEEPEST => return Err(18),
            Kind::Group(depth) => {
                let bodies = bodies(bytes, body.place, depth).ok_or(16)?;
                ahead.extend(bodies.into_iter().rev());
            }
        }
    }
    Ok(found)
}

/// The bodies of a section that begins at `place` of the capture; none where its entries are wrong.
fn bodies(section: &[u8], place: usize, depth: usize) -> Option<Vec<(Kind, Body)>> {
    let (count, rest) = section.split_at_checked(COUNT_SIZE)?;
    let count = number(count);
    if count > MOST_ENTRIES {
        return None;
    }
    let entries = rest.get(..count * ENTRY_SIZE)?;
    let mut end = COUNT_SIZE + entries.len();
    let mut bodies = Vec::with_capacity(count);
    for entry in entries.chunks_exact(ENTRY_SIZE) {
        let kind = match entry[0] {
            0 => Kind::Frame,
            1 => Kind::Group(depth + 1),
            _ => return None,
        };
        let (size, offset) = (number(&entry[1..4]), number(&entry[4..]));
        if offset != end {
            return None;
        }
        let place = place + offset;
        bodies.push((kind, Body { place, size }));
        end += size;
    }
    (end == section.len()).then_some(bodies)
}

fn is_frame(body: &[u8]) -> bool {
    let Some((head, data)) = body.split_at_checked(HEAD_SIZE) else {
        return false;
    };
    let (identifier, code) = (number(&head[..4]), u32::from(head[4]));
    identifier < IDENTIFIERS && coded_length(code) == Ok(data.len())
}

/// High byte first.
fn number(bytes: &[u8]) -> usize {
    bytes
        .iter()
        .fold(0, |number, &byte| number << 8 | usize::from(byte))
}
