//! Payloads in pieces: however they are cut, the whole-string calls give the same.

use super::stream::Stream;
use super::KINDS;
use crate::judge::{Judge, Verdict};
use tikhoplav::pieces::Kind;

const RANDOM_TRIALS: usize = 500;

/// Every cutting of an AD of 3 bytes and a message of 4 into pieces of one byte or more.
pub fn every(judge: &mut Judge) -> Verdict {
    for kind in KINDS {
        for ad_cuts in 0..1 << 2 {
            for data_cuts in 0..1 << 3 {
                let (ad, data) = (pieces(3, ad_cuts), pieces(4, data_cuts));
                cut(judge, kind, &ad, &data)?;
            }
        }
    }
    Ok(())
}

/// The lengths of the pieces, where bit i tells whether there is a cut behind byte i.
fn pieces(length: usize, cuts: usize) -> Vec<usize> {
    let mut pieces = vec![1];
    for i in 0..length - 1 {
        match cuts >> i & 1 {
            1 => pieces.push(1),
            _ => *pieces.last_mut().expect("a piece") += 1,
        }
    }
    pieces
}

pub fn random(judge: &mut Judge) -> Verdict {
    for _ in 0..RANDOM_TRIALS {
        for kind in KINDS {
            let (ad, data) = (random_pieces(judge), random_pieces(judge));
            cut(judge, kind, &ad, &data)?;
        }
    }
    Ok(())
}

/// Up to 8 pieces; some are empty.
fn random_pieces(judge: &mut Judge) -> Vec<usize> {
    let count = judge.random.below(9);
    let longest = judge.random.pick(&[2, 10, 60]);
    (0..count).map(|_| judge.random.below(longest)).collect()
}

/// With an empty piece in each place.
pub fn one_byte(judge: &mut Judge) -> Verdict {
    for ad_len in [0, 1, 2, 127, 128, 129, 255, 256, 257] {
        for data_len in [0, 1, 2, 8, 65, 255, 256, 257] {
            for kind in KINDS {
                let with_empty = |length| [&[0][..], &[1, 0].repeat(length)].concat();
                cut(judge, kind, &with_empty(ad_len), &with_empty(data_len))?;
            }
        }
    }
    Ok(())
}

/// A stream in pieces of these lengths, with the machine's registers after each.
fn cut(judge: &mut Judge, kind: Kind, ad: &[usize], data: &[usize]) -> Verdict {
    let mut stream = judge.begun(kind, ad.iter().sum())?;
    stream.beside_machine(judge)?;
    for &length in ad {
        let call = judge.ad(kind, length);
        stream.accept(judge, &call)?;
    }
    stream.beside_machine(judge)?;
    for &length in data {
        let call = judge.data(kind, length);
        stream.accept(judge, &call)?;
        if data.len() < 10 {
            stream.beside_machine(judge)?;
        }
    }
    finished(judge, &mut stream)
}

/// Ends the stream. Its state is then finished, with the tag in the accumulator.
fn finished(judge: &mut Judge, stream: &mut Stream) -> Verdict {
    let call = judge.finish(stream.kind, &stream.state);
    stream.accept(judge, &call)?;
    stream.beside_machine(judge)
}
