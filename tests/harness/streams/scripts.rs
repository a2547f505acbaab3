//! Scripts of random calls on one state. Each call may be refused, a begin starts anew, and now and
//! then a call is made on a copy of the state that is damaged.

use super::call::StreamCall;
use super::judge::right_tag;
use super::stream::Stream;
use super::{other, KINDS};
use crate::judge::{Judge, Verdict};
use tikhoplav::pieces::Kind;
use tikhoplav::sizes::{AD_MAX, TAG_SIZE};

const SHORT_SCRIPTS: usize = 40_000;
const LONG_SCRIPTS: usize = 400;

/// What a script's AD, pieces and count of random calls stay below.
#[derive(Clone, Copy)]
struct Bounds {
    ad: usize,
    piece: usize,
    calls: usize,
}

pub fn short(judge: &mut Judge) -> Verdict {
    let bounds = Bounds {
        ad: 12,
        piece: 8,
        calls: 30,
    };
    (0..SHORT_SCRIPTS).try_for_each(|_| script(judge, bounds))
}

pub fn long(judge: &mut Judge) -> Verdict {
    let bounds = Bounds {
        ad: 600,
        piece: 400,
        calls: 100,
    };
    (0..LONG_SCRIPTS).try_for_each(|_| script(judge, bounds))
}

/// Random calls, then the rest of the AD and the finish, and a call after it.
fn script(judge: &mut Judge, bounds: Bounds) -> Verdict {
    let kind = judge.random.pick(&KINDS);
    let ad_len = judge.random.below(bounds.ad);
    let mut stream = judge.begun(kind, ad_len)?;
    for _ in 0..judge.random.below(bounds.calls) {
        let call = random_call(judge, &stream, bounds);
        match judge.random.below(6) {
            0 => {
                let damaged = damaged(judge, &stream.state);
                judge.agree(&call, &damaged)?;
            }
            _ => {
                stream.make(judge, &call)?;
            }
        }
    }
    if !stream.finished {
        let rest = judge.ad(stream.kind, stream.ad_left());
        stream.accept(judge, &rest)?;
        let finish = judge.finish(stream.kind, &stream.state);
        stream.accept(judge, &finish)?;
    }
    stream.beside_machine(judge)?;
    for call in judge.calls(0, &stream.state) {
        judge.refuse(&call, &stream.state, 13)?;
    }
    Ok(())
}

fn random_call(judge: &mut Judge, stream: &Stream, bounds: Bounds) -> StreamCall {
    let kind = match judge.random.below(8) {
        0 => other(stream.kind),
        _ => stream.kind,
    };
    match judge.random.below(24) {
        0 => {
            let ad_len = judge.random.below(bounds.ad);
            judge.begin(kind, ad_len)
        }
        1..3 => refused_begin(judge, kind),
        3..12 => {
            let length = judge.random.below(stream.ad_left() + 3);
            judge.ad(kind, length)
        }
        12..21 => random_data(judge, kind, bounds.piece),
        _ => random_finish(judge, kind, stream),
    }
}

/// A begin with one thing wrong, or more.
fn refused_begin(judge: &mut Judge, kind: Kind) -> StreamCall {
    let fault = judge.random.below(1 << 5).max(1);
    let wrong = |bit: usize| fault >> bit & 1 == 1;
    let mut begin = judge.begin(kind, 3);
    if let StreamCall::Begin {
        edition,
        key,
        nonce,
        ad_len,
        ..
    } = &mut begin
    {
        if wrong(0) {
            *edition = judge.random.pick(&[0, 3, 257, u32::MAX]);
        }
        if wrong(1) {
            key.truncate(judge.random.below(16));
        }
        if wrong(2) {
            nonce.push(0);
        }
        if wrong(3) {
            key.fill(0);
        }
        if wrong(4) {
            *ad_len = AD_MAX + 1 + judge.random.below(70_000);
        }
    }
    begin
}

/// A message with room from a byte too little to some bytes more than needed, or a ciphertext.
fn random_data(judge: &mut Judge, kind: Kind, longest: usize) -> StreamCall {
    let length = judge.random.below(longest);
    let mut call = judge.data(kind, length);
    if let StreamCall::Message { lent, .. } = &mut call {
        let room = (length + judge.random.below(6)).saturating_sub(1);
        *lent = judge.random.bytes(room);
    }
    call
}

/// A finish with room from a byte too little to some bytes more than needed, or with a tag that is
/// right, differs in a bit or in all, or is of another length.
fn random_finish(judge: &mut Judge, kind: Kind, stream: &Stream) -> StreamCall {
    if kind == Kind::Sealing {
        let room = TAG_SIZE - 1 + judge.random.below(6);
        return StreamCall::Seal {
            lent: judge.random.bytes(room),
        };
    }
    let random = judge.random.bytes(TAG_SIZE);
    let mut tag = right_tag(&stream.state).unwrap_or(random.clone());
    match judge.random.below(6) {
        0 | 1 => tag[judge.random.below(TAG_SIZE)] ^= 1 << judge.random.below(8),
        2 => tag = random,
        3 => tag.truncate(judge.random.below(TAG_SIZE)),
        4 => tag.push(0),
        _ => (),
    }
    StreamCall::Check { tag }
}

/// With a byte behind the registers changed, or of another length.
fn damaged(judge: &mut Judge, state: &[u8]) -> Vec<u8> {
    let mut damaged = state.to_vec();
    match judge.random.below(4) {
        0 => damaged.resize(judge.random.below(130), 0),
        1 => damaged[57 + judge.random.below(7)] = judge.random.number() as u8 | 1,
        _ => damaged[48 + judge.random.below(9)] = judge.random.number() as u8 % 5,
    }
    damaged
}
