//! The model against the published vectors, and the selftest's stored answers against the model.

use crate::judge::{Judge, Verdict};
use model::{Edition, Machine};
use tikhoplav::hex;
use tikhoplav::sizes::{KEY_SIZE, NONCE_SIZE, TAG_SIZE};
use tikhoplav::vectors::{counting, Published, Sealed, Summand};
use tikhoplav::vectors::{PUBLISHED, SEALED, UNDER_BLANK_KEY};

pub fn published(judge: &mut Judge) -> Verdict {
    for vector in &PUBLISHED {
        judge.holds(
            "the model's keystream is as published",
            keystream(vector) == vector.keystream,
        )?;
        judge.holds("the model's tag is as published", tag(vector) == vector.tag)?;
        if let Some(summands) = &vector.summands {
            judge.holds(
                "the summands' strings sum to the published one",
                sum(summands) == vector.string,
            )?;
        }
    }
    Ok(())
}

fn keystream(vector: &Published) -> u128 {
    let mut machine = Machine::start(Edition::First, &vector.key, &vector.nonce);
    (0..128).fold(0, |n, _| {
        let bit = machine.preoutput();
        machine.absorb(0);
        (n << 1) | u128::from(bit)
    })
}

fn tag(vector: &Published) -> u64 {
    let mut machine = Machine::start(Edition::First, &vector.key, &vector.nonce);
    machine.absorb_bytes(vector.string);
    machine.accumulator()
}

/// The sum of the summands' strings, without the zero bytes at its end.
fn sum(summands: &[Summand]) -> Vec<u8> {
    let mut sum = Vec::new();
    for summand in summands {
        let (ad, message) = (summand.ad(), summand.message());
        let string = [model::coded_length(ad.len()), ad, message, vec![0x80]].concat();
        sum.resize(sum.len().max(string.len()), 0);
        sum.iter_mut().zip(string).for_each(|(s, byte)| *s ^= byte);
    }
    while sum.last() == Some(&0) {
        sum.pop();
    }
    sum
}

pub fn stored(judge: &mut Judge) -> Verdict {
    let blank = UNDER_BLANK_KEY;
    let payload = model::payload(
        Edition::First,
        &[0; KEY_SIZE],
        &blank.nonce,
        &model::coded_length(blank.ad.len()),
        blank.ad,
        blank.message,
    );
    judge.holds(
        "the stored payload under the blank key is the model's",
        payload == blank.payload,
    )?;
    for vector in &SEALED {
        for (edition, end) in vector.by_edition() {
            ends_with(judge, vector, edition, end)?;
        }
    }
    Ok(())
}

fn ends_with(judge: &mut Judge, vector: &Sealed, edition: u32, end: &str) -> Verdict {
    let payload = model::seal(
        edition,
        &counting(KEY_SIZE),
        &counting(NONCE_SIZE),
        &counting(vector.ad_len),
        &counting(vector.message_len),
        vector.message_len + TAG_SIZE,
    );
    judge.holds(
        &format!(
            "the model's payload of edition {edition}, AD {} and message {} ends with {end}",
            vector.ad_len, vector.message_len
        ),
        payload.is_ok_and(|payload| hex::encode(&payload).ends_with(end)),
    )
}
