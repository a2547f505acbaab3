//! Table 3 of the paper: the model against all of it, and the calls against the columns under a key
//! that they take.

use super::registers::{cut, read, spelled};
use super::trial::{Call, Trial};
use super::TAG_BITS;
use crate::judge::{Judge, Verdict};
use model::grain128a::{preoutputs, Authenticated};
use model::Edition;
use tikhoplav::grain128a_vectors::{bytes, summands, Authentication, Column};
use tikhoplav::grain128a_vectors::{MESSAGES, SHORT_TAG, TABLE_3};
use tikhoplav::sizes::{grain128a_tag_size, KEY_SIZE};

pub fn on_model(judge: &mut Judge) -> Verdict {
    for column in &TABLE_3 {
        let preoutput = Edition::First.bytes(&preoutputs(&column.key, &column.nonce, 320));
        judge.holds("the pre-output", preoutput == bytes(&column.preoutput))?;
        if let Some(authentication) = &column.authentication {
            registers_and_streams(judge, column, authentication)?;
            for (message, published) in MESSAGES.iter().zip(authentication.tags) {
                let tag = tag(column, message, 32);
                judge.holds("a tag", read(&tag) == published)?;
            }
        }
    }
    let short = tag(&TABLE_3[3], MESSAGES[4], 16);
    judge.holds("the tag of 16 bits", short == SHORT_TAG.to_be_bytes())
}

fn start(column: &Column) -> Authenticated {
    Authenticated::start(&column.key, &column.nonce)
}

fn registers_and_streams(
    judge: &mut Judge,
    column: &Column,
    published: &Authentication,
) -> Verdict {
    let mut machine = start(column);
    let loaded = (machine.accumulator(), machine.register());
    judge.holds(
        "accumulator and register",
        loaded == (published.accumulator, published.register),
    )?;
    let step = |_| {
        let keystream = machine.keystream();
        machine.absorb(0);
        (keystream, (machine.register() & 1) as u8)
    };
    let (keystream, macstream): (Vec<u8>, Vec<u8>) = (0..128).map(step).unzip();
    let spelled = |bits: &[u8]| Edition::First.bytes(bits);
    judge.holds(
        "the keystream",
        spelled(&keystream) == bytes(&published.keystream),
    )?;
    judge.holds(
        "the macstream",
        spelled(&macstream) == bytes(&published.macstream),
    )
}

/// By the model, of a message of any bits.
fn tag(column: &Column, message: &str, tag_bits: u32) -> Vec<u8> {
    let mut machine = start(column);
    for digit in message.bytes() {
        machine.absorb(digit - b'0');
    }
    machine.finish(tag_bits)
}

/// The columns that the calls take.
fn legal() -> impl Iterator<Item = &'static Column> {
    TABLE_3.iter().filter(|column| column.key != [0; KEY_SIZE])
}

fn trial(judge: &mut Judge, column: &Column, tag_bits: u32, message: Vec<u8>) -> Trial {
    let call = match column.authentication {
        None => Call::Crypt,
        Some(_) => Call::Seal,
    };
    Trial {
        call,
        key: column.key.to_vec(),
        nonce: column.nonce.to_vec(),
        tag_bits,
        lent: judge
            .random
            .bytes(message.len() + grain128a_tag_size(tag_bits)),
        data: message,
    }
}

/// What sealing and crypt give for zeros is the keystream. Without authentication that is the
/// pre-output.
pub fn keystreams(judge: &mut Judge) -> Verdict {
    for column in legal() {
        let keystream = match &column.authentication {
            None => bytes(&column.preoutput),
            Some(published) => bytes(&published.keystream),
        };
        for length in 0..=keystream.len() {
            let trial = trial(judge, column, 32, vec![0; length]);
            judge.agree_on_grain128a(&trial)?;
            let written = trial.by_archive().out;
            judge.holds(
                "zeros become the keystream",
                written[..length] == keystream[..length],
            )?;
        }
    }
    Ok(())
}

/// Those of the empty message with every length; those of all messages as the sum of three tags.
pub fn tags(judge: &mut Judge) -> Verdict {
    for column in legal() {
        let Some(published) = &column.authentication else {
            continue;
        };
        for tag_bits in TAG_BITS {
            let sealing = trial(judge, column, tag_bits, Vec::new());
            let tag = spelled(cut(published.tags[0], tag_bits), tag_bits);
            judge.expect_grain128a(&sealing, &sealing.success(&tag))?;
        }
        for (message, expected) in MESSAGES.iter().zip(published.tags) {
            let sum = summands(message).into_iter().fold(0, |sum, message| {
                let length = message.len();
                let sealing = trial(judge, column, 32, message);
                sum ^ read(&sealing.by_archive().out[length..])
            });
            judge.holds(
                "the three tags add up to the published one",
                sum == expected,
            )?;
        }
    }
    Ok(())
}
