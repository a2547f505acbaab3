//! Genuine payloads with bits of AD and ciphertext flipped. Opening accepts them exactly when the
//! flips in the tag are the sum of the authenticator register's contents at the flipped positions,
//! and then gives the old message with the ciphertext's flips.

use crate::judge::{Judge, Verdict};
use crate::random::Random;
use crate::registers;
use crate::trial::Trial;
use tikhoplav::sizes::{AD_MAX, MESSAGE_MAX};

const PAYLOADS: usize = 60;

/// One byte's worth of flips.
type Pattern = fn(&mut Random) -> u8;

const NONE: Pattern = |_| 0;
const ALL: Pattern = |_| 0xff;
const HALF: Pattern = |random| random.number() as u8;
const FEW: Pattern = |random| random.pick(&[0, 0, 0, 0, 0, 0, 0x80, 0x01]);

/// What is exclusive-ored into the AD and into the ciphertext.
struct Flips {
    ad: Vec<u8>,
    ciphertext: Vec<u8>,
}

/// A sealing, and the register's contents at the positions of its AD and message.
struct Genuine {
    sealing: Trial,
    registers: Vec<u64>,
}

impl Genuine {
    /// The string begins with the coded AD length, whose bits are never flipped.
    fn new(sealing: Trial) -> Genuine {
        let before = 8 * model::coded_length(sealing.ad.len()).len();
        let positions = before + 8 * (sealing.ad.len() + sealing.data.len());
        Genuine {
            registers: registers::contents(&sealing, positions).split_off(before),
            sealing,
        }
    }

    fn sum_of_registers(&self, flips: &Flips) -> u64 {
        let flips = [&flips.ad[..], &flips.ciphertext].concat();
        let bits = self.sealing.known_edition().bits(&flips);
        registers::sum(&self.registers, &bits)
    }
}

pub fn every_position(judge: &mut Judge) -> Verdict {
    for (ad_len, message_len) in [(0, 6), (6, 0), (4, 5), (128, 3)] {
        let genuine = Genuine::new(judge.sealing(ad_len, message_len));
        for position in 0..8 * (ad_len + message_len) {
            let mut ad = vec![0; ad_len + message_len];
            ad[position / 8] = genuine.sealing.known_edition().mask(position);
            let ciphertext = ad.split_off(ad_len);
            let changes = [1, judge.random.number() | 1];
            both_directions(judge, &genuine, &Flips { ad, ciphertext }, &changes)?;
        }
    }
    Ok(())
}

pub fn random(judge: &mut Judge) -> Verdict {
    let every_tag_bit = (0..64).map(|j| 1 << j);
    for _ in 0..PAYLOADS {
        let any = judge.random.number() | 1;
        let changes: Vec<u64> = every_tag_bit.clone().chain([any, u64::MAX]).collect();
        let ad_len = judge.random.pick(&[0, 1, 7, 30, 127, 128, 140, 255, 256]);
        let message_len = judge.random.below(60);
        let genuine = Genuine::new(judge.sealing(ad_len, message_len));
        for flips in choices(judge, &genuine.sealing) {
            both_directions(judge, &genuine, &flips, &changes)?;
        }
    }
    Ok(())
}

pub fn largest(judge: &mut Judge) -> Verdict {
    let genuine = Genuine::new(judge.sealing(AD_MAX, MESSAGE_MAX));
    for flips in choices(judge, &genuine.sealing) {
        both_directions(judge, &genuine, &flips, &[1, 1 << 63])?;
    }
    Ok(())
}

/// None, all, half of the AD's alone, half of the ciphertext's alone, few, and half of all.
fn choices(judge: &mut Judge, sealing: &Trial) -> Vec<Flips> {
    let patterns = [
        (NONE, NONE),
        (ALL, ALL),
        (HALF, NONE),
        (NONE, HALF),
        (FEW, FEW),
        (HALF, HALF),
    ];
    let mut fill = |pattern: Pattern, length: usize| -> Vec<u8> {
        (0..length).map(|_| pattern(&mut judge.random)).collect()
    };
    patterns
        .into_iter()
        .map(|(ad, ciphertext)| Flips {
            ad: fill(ad, sealing.ad.len()),
            ciphertext: fill(ciphertext, sealing.data.len()),
        })
        .collect()
}

/// Opens with the sum as the tag's flips, and with the sum changed in each of the given ways.
fn both_directions(
    judge: &mut Judge,
    genuine: &Genuine,
    flips: &Flips,
    changes: &[u64],
) -> Verdict {
    let sealing = &genuine.sealing;
    let mut opening = judge.opening(sealing);
    let (ciphertext, tag) = opening.data.split_at_mut(sealing.data.len());
    add(&mut opening.ad, &flips.ad);
    add(ciphertext, &flips.ciphertext);
    let sum = genuine.sum_of_registers(flips);
    add(tag, &registers::spelled(sealing, sum));
    let mut message = sealing.data.clone();
    add(&mut message, &flips.ciphertext);
    let room = message.len() + judge.random.below(9);
    opening.lent = judge.random.bytes(room);
    judge.expect(&opening, &opening.success(&message))?;
    let untouched_tag = [sum].into_iter().filter(|&change| change != 0);
    for change in changes.iter().copied().chain(untouched_tag) {
        let mut refused = opening.clone();
        let change = registers::spelled(sealing, change);
        add(&mut refused.data[message.len()..], &change);
        judge.expect(&refused, &refused.refusal(7))?;
    }
    Ok(())
}

fn add(bytes: &mut [u8], flips: &[u8]) {
    for (byte, flip) in bytes.iter_mut().zip(flips) {
        *byte ^= flip;
    }
}
