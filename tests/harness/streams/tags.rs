//! The tag of a checking stream. A wrong one leaves the stream open, and the right one is accepted
//! afterwards.

use super::call::StreamCall;
use super::judge::right_tag;
use crate::judge::{Judge, Verdict};
use tikhoplav::pieces::Kind;
use tikhoplav::sizes::TAG_SIZE;

pub fn run(judge: &mut Judge) -> Verdict {
    for ad_len in [0, 5, 128] {
        for data_len in [0, 1, 20, 300] {
            let mut stream = judge.begun(Kind::Checking, ad_len)?;
            for call in [
                judge.ad(Kind::Checking, ad_len),
                judge.data(Kind::Checking, data_len),
            ] {
                stream.accept(judge, &call)?;
            }
            let tag = right_tag(&stream.state).expect("a stream with its whole AD");
            for (number, wrong) in wrong_tags(judge, &tag) {
                let call = StreamCall::Check { tag: wrong };
                judge.refuse(&call, &stream.state, number)?;
                stream.make(judge, &call)?;
            }
            stream.accept(judge, &StreamCall::Check { tag })?;
        }
    }
    Ok(())
}

/// With their refusals: each bit flipped, each byte another, all bytes others, and tags of other
/// lengths that begin with the right one or are its beginning.
fn wrong_tags(judge: &mut Judge, tag: &[u8]) -> Vec<(u8, Vec<u8>)> {
    let changed = |place: usize, flips: u8| {
        let mut changed = tag.to_vec();
        changed[place] ^= flips;
        (7, changed)
    };
    let bits = (0..8 * TAG_SIZE).map(|bit| changed(bit / 8, 1 << (bit % 8)));
    let bytes = (0..TAG_SIZE).map(|place| changed(place, 0xff));
    let mut wrong: Vec<(u8, Vec<u8>)> = bits.chain(bytes).collect();
    wrong.push((7, tag.iter().map(|byte| !byte).collect()));
    wrong.push((7, tag.iter().rev().copied().collect()));
    let longer = [tag, &judge.random.bytes(300)].concat();
    let lengths = (0..=20)
        .chain([256, 264])
        .filter(|&length| length != TAG_SIZE);
    wrong.extend(lengths.map(|length| (5, longer[..length].to_vec())));
    wrong
}
