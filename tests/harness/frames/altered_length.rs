//! Genuine frames whose M is altered where neither code nor filler tells, so that the tag decides.
//! The messages are chosen for that: each bit of a frame is a sum of message bits, and of a bit that
//! key, nonce and AD give.

use super::stream::Stream;
use super::trial::FrameTrial;
use super::{code_for, LONGEST};
use crate::equations::{ones, solve};
use crate::judge::{Judge, Verdict};

/// The most bytes of a message that are chosen.
const CHOSEN: usize = 16;

/// Fewer bytes can't be chosen so that a tag of 8 fits.
const ENOUGH: usize = 8;

const TRIES: usize = 1_000;

/// Every two lengths of one code, the smaller first.
fn pairs() -> impl Iterator<Item = (usize, usize)> {
    (0..=LONGEST)
        .flat_map(|longer| (0..longer).map(move |shorter| (shorter, longer)))
        .filter(|&(shorter, longer)| code_for(shorter) == code_for(longer))
}

/// The sealed part ends with zeros, so that it has filler under a smaller M.
pub fn shorter(judge: &mut Judge) -> Verdict {
    for (shorter, longer) in pairs() {
        let last = longer - shorter;
        let making = chosen(judge, longer, |stream, message| {
            let sealed = stream.sealed(message);
            number(&sealed[sealed.len() - last..])
        })?;
        let genuine = judge.reading(&making, longer);
        judge.expect_frame(&making, &making.success(&genuine.data))?;
        judge.expect_frame(&genuine, &genuine.success(&making.data))?;
        let altered = with_length(&genuine, shorter);
        judge.expect_frame(&altered, &altered.refusal(7))?;
    }
    Ok(())
}

/// The data field is genuine under both lengths.
pub fn either(judge: &mut Judge) -> Verdict {
    for (shorter, longer) in pairs().filter(|&(shorter, _)| shorter >= ENOUGH) {
        let making = chosen(judge, shorter, |stream, message| {
            let mut sealed = stream.sealed(message);
            sealed.resize(longer + 8, 0);
            let other = stream.enciphered(&sealed[..longer]);
            number(&sealed[longer..]) ^ number(&stream.tag(&other))
        })?;
        let genuine = judge.reading(&making, LONGEST);
        let altered = with_length(&genuine, longer);
        let other = Stream::new(&making).enciphered(&genuine.data[1..=longer]);
        for (reading, message) in [(genuine, making.data), (altered, other)] {
            judge.expect_frame(&reading, &reading.success(&message))?;
            let mut refused = reading;
            refused.data[1] ^= 1;
            judge.expect_frame(&refused, &refused.refusal(7))?;
        }
    }
    Ok(())
}

fn with_length(reading: &FrameTrial, message_len: usize) -> FrameTrial {
    let mut altered = reading.clone();
    altered.data[0] = message_len as u8;
    altered
}

/// A making for whose message this number is 0.
fn chosen(
    judge: &mut Judge,
    message_len: usize,
    excess: impl Fn(&Stream, &[u8]) -> u128,
) -> Result<FrameTrial, String> {
    for _ in 0..TRIES {
        let mut making = judge.making(message_len);
        let stream = Stream::new(&making);
        if let Some(message) = choose(&making.data, |message| excess(&stream, message)) {
            making.data = message;
            return Ok(making);
        }
    }
    Err(format!("no frame of {message_len} bytes can be chosen"))
}

/// The message with some bits at its end flipped, so that this number, whose bits are sums of
/// message bits, is 0.
fn choose(message: &[u8], excess: impl Fn(&[u8]) -> u128) -> Option<Vec<u8>> {
    let end = 8 * message.len();
    let begin = end.saturating_sub(8 * CHOSEN);
    let flipped = |message: &[u8], bit: usize| {
        let mut message = message.to_vec();
        message[bit / 8] ^= 0x80 >> (bit % 8);
        message
    };
    let sum = excess(message);
    let vectors: Vec<u128> = (begin..end)
        .map(|bit| excess(&flipped(message, bit)) ^ sum)
        .collect();
    let set = solve(&vectors, sum)?;
    let bits = ones(set).map(|j| begin + j);
    Some(bits.fold(message.to_vec(), |message, bit| flipped(&message, bit)))
}

/// The bytes as a number, high first.
fn number(bytes: &[u8]) -> u128 {
    bytes.iter().fold(0, |n, &byte| n << 8 | u128::from(byte))
}
