//! Genuine frames with bits of identifier and ciphertext flipped. Reading accepts them exactly when
//! the flips in the tag are the sum of the authenticator register's contents at the flipped
//! positions.

use super::trial::FrameTrial;
use crate::judge::{Judge, Verdict};
use crate::registers;
use tikhoplav::sizes::IDENTIFIER_MAX;

const RANDOM_TRIALS: usize = 20;
const MESSAGE_LENS: [usize; 5] = [0, 3, 16, 39, 55];

/// What is exclusive-ored into the identifier and into the ciphertext.
struct Flips {
    identifier: u32,
    ciphertext: Vec<u8>,
}

pub fn every_position(judge: &mut Judge) -> Verdict {
    for message_len in MESSAGE_LENS {
        let making = judge.making(message_len);
        let contents = contents(&making);
        let none = vec![0; message_len];
        for bit in 0..29 {
            let flips = Flips {
                identifier: 1 << bit,
                ciphertext: none.clone(),
            };
            both_directions(judge, &making, &contents, &flips)?;
        }
        for bit in 0..8 * message_len {
            let mut ciphertext = none.clone();
            ciphertext[bit / 8] = 0x80 >> (bit % 8);
            let flips = Flips {
                identifier: 0,
                ciphertext,
            };
            both_directions(judge, &making, &contents, &flips)?;
        }
    }
    Ok(())
}

pub fn random(judge: &mut Judge) -> Verdict {
    for message_len in MESSAGE_LENS {
        let making = judge.making(message_len);
        let contents = contents(&making);
        for _ in 0..RANDOM_TRIALS {
            let flips = Flips {
                identifier: judge.random.number() as u32 & IDENTIFIER_MAX,
                ciphertext: judge.random.bytes(message_len),
            };
            both_directions(judge, &making, &contents, &flips)?;
        }
    }
    Ok(())
}

/// The register at each position of the frame's authenticated string.
fn contents(making: &FrameTrial) -> Vec<u64> {
    let sealing = making.sealing();
    let coded_length = model::coded_length(sealing.ad.len());
    let bytes = coded_length.len() + sealing.ad.len() + sealing.data.len();
    registers::contents(&sealing, 8 * bytes)
}

/// The registers at the flipped positions, added up.
fn sum_of_registers(making: &FrameTrial, contents: &[u64], flips: &Flips) -> u64 {
    let [a, b, c, d] = flips.identifier.to_be_bytes();
    let ahead = [0, a, b, c, d, 0];
    let bits = [&ahead, &flips.ciphertext[..]].concat();
    let edition = making.sealing().known_edition();
    registers::sum(contents, &edition.bits(&bits))
}

/// Reads with the sum as the tag's flips, and with the sum changed in a bit and in many.
fn both_directions(
    judge: &mut Judge,
    making: &FrameTrial,
    contents: &[u64],
    flips: &Flips,
) -> Verdict {
    let length = making.data.len();
    let sum = sum_of_registers(making, contents, flips);
    let flipped_tag = |change| registers::spelled(&making.sealing(), sum ^ change);
    let room = length + judge.random.below(9);
    let mut reading = judge.reading(making, room);
    reading.identifier ^= flips.identifier;
    add(&mut reading.data[1..], &flips.ciphertext);
    let mut message = making.data.clone();
    add(&mut message, &flips.ciphertext);
    let mut accepted = reading.clone();
    add(&mut accepted.data[1 + length..], &flipped_tag(0));
    judge.expect_frame(&accepted, &accepted.success(&message))?;
    for change in [1 << judge.random.below(64), judge.random.number() | 1] {
        let mut refused = reading.clone();
        add(&mut refused.data[1 + length..], &flipped_tag(change));
        judge.expect_frame(&refused, &refused.refusal(7))?;
    }
    Ok(())
}

fn add(bytes: &mut [u8], flips: &[u8]) {
    for (byte, flip) in bytes.iter_mut().zip(flips) {
        *byte ^= flip;
    }
}
