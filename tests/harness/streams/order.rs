//! All sequences of a few calls, those in a wrong order too.

use super::call::StreamCall;
use super::stream::Stream;
use super::KINDS;
use crate::judge::{Judge, Verdict};
use tikhoplav::pieces::Kind;
use tikhoplav::sizes::STATE_SIZE;

const LONGEST: usize = 5;

/// After a begin, with pieces of one byte. An AD of 2 bytes takes two of the calls.
pub fn every(judge: &mut Judge) -> Verdict {
    for kind in KINDS {
        for ad_len in 0..=2 {
            let begun = judge.begun(kind, ad_len)?;
            walk(judge, &begun, ad_len, LONGEST)?;
        }
    }
    without_begin(judge)
}

fn walk(judge: &mut Judge, stream: &Stream, ad_len: usize, depth: usize) -> Verdict {
    if depth == 0 {
        return Ok(());
    }
    let begins = KINDS.map(|kind| judge.begin(kind, ad_len));
    let others = judge.calls(1, &stream.state);
    for call in begins.into_iter().chain(others) {
        let mut next = stream.clone();
        let answer = next.make(judge, &call)?;
        let expected = if in_turn(stream, &call) {
            next.clocks()
        } else {
            -13
        };
        judge.holds("13 is for calls out of turn", answer == expected)?;
        walk(judge, &next, ad_len, depth - 1)?;
    }
    Ok(())
}

fn in_turn(stream: &Stream, call: &StreamCall) -> bool {
    let is_open = |kind: Kind| stream.kind == kind && !stream.finished;
    let has_ad = stream.ad_left() == 0;
    match call {
        StreamCall::Begin { .. } => true,
        StreamCall::Ad { kind, .. } => is_open(*kind) && !has_ad,
        StreamCall::Message { .. } | StreamCall::Seal { .. } => is_open(Kind::Sealing) && has_ad,
        StreamCall::Ciphertext { .. } | StreamCall::Check { .. } => {
            is_open(Kind::Checking) && has_ad
        }
    }
}

/// Zeros are the state of no stream.
fn without_begin(judge: &mut Judge) -> Verdict {
    for byte in [0, 0xff] {
        let state = [byte; STATE_SIZE];
        for call in judge.calls(1, &state) {
            judge.refuse(&call, &state, 14)?;
        }
    }
    Ok(())
}
