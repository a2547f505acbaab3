//! AD and message of the greatest lengths, in pieces.

use super::stream::Stream;
use super::KINDS;
use crate::judge::{Judge, Verdict};
use tikhoplav::sizes::{AD_MAX, MESSAGE_MAX, STATE_SIZE};

/// The clocks of the largest job, by edition.
const CLOCKS: [i64; 2] = [2_032_034, 2_032_034 + 128];

pub fn largest(judge: &mut Judge) -> Verdict {
    for piece in [1, 64, 1021, 4096, AD_MAX] {
        for kind in KINDS {
            let mut stream = judge.begun(kind, AD_MAX)?;
            fill(judge, &mut stream, MESSAGE_MAX, piece)?;
            nothing_more_fits(judge, &stream)?;
            let finish = judge.finish(kind, &stream.state);
            let clocks = stream.make(judge, &finish)?;
            judge.holds(
                "the clocks are those of the largest job",
                clocks == CLOCKS[judge.edition as usize - 1],
            )?;
        }
    }
    Ok(())
}

/// A byte below the limits, at them and above.
pub fn borders(judge: &mut Judge) -> Verdict {
    for kind in KINDS {
        for ad_len in [0, 255, 256, AD_MAX - 1, AD_MAX] {
            let mut stream = judge.begun(kind, ad_len)?;
            fill(judge, &mut stream, 0, 5000)?;
            let too_long = judge.data(kind, MESSAGE_MAX + 1);
            judge.refuse(&too_long, &stream.state, 4)?;
            fill(judge, &mut stream, MESSAGE_MAX - 1, 9999)?;
            let too_long = judge.data(kind, 2);
            judge.refuse(&too_long, &stream.state, 4)?;
            fill(judge, &mut stream, MESSAGE_MAX, 1)?;
            nothing_more_fits(judge, &stream)?;
        }
        let too_long = judge.begin(kind, AD_MAX + 1);
        let state = judge.random.bytes(STATE_SIZE);
        judge.refuse(&too_long, &state, 3)?;
    }
    Ok(())
}

/// Gives what is left of the AD, and of a message of this length, in pieces of at most this length.
fn fill(judge: &mut Judge, stream: &mut Stream, message_len: usize, piece: usize) -> Verdict {
    while stream.ad_left() > 0 {
        let call = judge.ad(stream.kind, stream.ad_left().min(piece));
        stream.accept(judge, &call)?;
    }
    while stream.data.len() < message_len {
        let left = message_len - stream.data.len();
        let call = judge.data(stream.kind, left.min(piece));
        stream.accept(judge, &call)?;
    }
    Ok(())
}

/// A byte more of AD or of the message is refused, and an empty piece is accepted.
fn nothing_more_fits(judge: &mut Judge, stream: &Stream) -> Verdict {
    let kind = stream.kind;
    for length in [1, 2, MESSAGE_MAX + 1] {
        let (ad, data) = (judge.ad(kind, length), judge.data(kind, length));
        judge.refuse(&ad, &stream.state, 13)?;
        judge.refuse(&data, &stream.state, 4)?;
    }
    let mut same = stream.clone();
    for call in [judge.ad(kind, 0), judge.data(kind, 0)] {
        same.accept(judge, &call)?;
    }
    judge.holds("empty pieces change nothing", same.state == stream.state)
}
