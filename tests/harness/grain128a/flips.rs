//! Genuine payloads with bits of ciphertext and tag flipped. Opening accepts them exactly when the
//! flips in the tag are the sum of the register's contents at the flipped positions, cut to their
//! last places as the tag is, and then gives the old message with the ciphertext's flips.

use super::registers::{contents, cut, spelled};
use super::trial::{Call, Trial};
use super::{BORDERS, TAG_BITS};
use crate::equations::{ones, solve};
use crate::judge::{Judge, Verdict};
use tikhoplav::sizes::MESSAGE_MAX;

const PAYLOADS: usize = 200;
const SOLVED: usize = 5;

/// A sealing, its opening, and the register's contents at the positions of its message, cut as its
/// tag is.
struct Genuine {
    sealing: Trial,
    opening: Trial,
    registers: Vec<u32>,
}

impl Genuine {
    fn new(judge: &mut Judge, tag_bits: u32, message_len: usize) -> Genuine {
        let sealing = judge.grain128a(Call::Seal, tag_bits, message_len);
        let opening = judge.grain128a_opening(&sealing);
        let contents = contents(&sealing, 8 * message_len).into_iter();
        Genuine {
            registers: contents.map(|content| cut(content, tag_bits)).collect(),
            sealing,
            opening,
        }
    }

    fn sum_of_registers(&self, flips: &[u8]) -> u32 {
        let flipped = |&i: &usize| flips[i / 8] >> (7 - i % 8) & 1 == 1;
        let positions = (0..self.registers.len()).filter(flipped);
        positions.fold(0, |sum, i| sum ^ self.registers[i])
    }

    /// No flips of the ciphertext.
    fn none(&self) -> Vec<u8> {
        vec![0; self.sealing.data.len()]
    }

    /// The ciphertext with this one bit flipped.
    fn one(&self, position: usize) -> Vec<u8> {
        let mut flips = self.none();
        flips[position / 8] = 0x80 >> (position % 8);
        flips
    }

    /// The opening is accepted with these flips exactly when the registers say so.
    fn judged(&self, judge: &mut Judge, ciphertext: &[u8], tag: u32) -> Verdict {
        let mut opening = self.opening.clone();
        let flips = [ciphertext, &spelled(tag, opening.tag_bits)].concat();
        add(&mut opening.data, &flips);
        let room = ciphertext.len() + judge.random.below(9);
        opening.lent = judge.random.bytes(room);
        let mut message = self.sealing.data.clone();
        add(&mut message, ciphertext);
        let expected = match self.sum_of_registers(ciphertext) == tag {
            true => opening.success(&message),
            false => opening.refusal(7),
        };
        judge.expect_grain128a(&opening, &expected)
    }

    /// With the sum as the tag's flips, without any, and with the sum changed in each of these ways.
    fn both_directions(&self, judge: &mut Judge, flips: &[u8], changes: &[u32]) -> Verdict {
        let sum = self.sum_of_registers(flips);
        self.judged(judge, flips, sum)?;
        self.judged(judge, flips, 0)?;
        for change in changes {
            self.judged(judge, flips, sum ^ cut(*change, self.sealing.tag_bits))?;
        }
        Ok(())
    }
}

fn add(bytes: &mut [u8], flips: &[u8]) {
    for (byte, flip) in bytes.iter_mut().zip(flips) {
        *byte ^= flip;
    }
}

/// Each bit of the tag alone, and each of the ciphertext, with every tag length.
pub fn every_bit(judge: &mut Judge) -> Verdict {
    for tag_bits in TAG_BITS {
        let genuine = Genuine::new(judge, tag_bits, 6);
        for bit in 0..tag_bits {
            genuine.judged(judge, &genuine.none(), 1 << bit)?;
        }
        for position in 0..48 {
            let any = judge.random.number() as u32;
            let flips = genuine.one(position);
            genuine.both_directions(judge, &flips, &[1, any])?;
        }
    }
    Ok(())
}

/// Few, half and all of the ciphertext's bits.
pub fn random(judge: &mut Judge) -> Verdict {
    for _ in 0..PAYLOADS {
        let (tag_bits, message_len) = (judge.tag_bits(), judge.random.below(60));
        let genuine = Genuine::new(judge, tag_bits, message_len);
        let any = judge.random.number() as u32;
        let changes = [1, 1 << (tag_bits - 1), any, u32::MAX];
        for flips in choices(judge, message_len) {
            genuine.both_directions(judge, &flips, &changes)?;
        }
    }
    Ok(())
}

fn choices(judge: &mut Judge, length: usize) -> [Vec<u8>; 4] {
    let half = judge.random.bytes(length);
    let few = [0, 0, 0, 0, 0, 0, 0x80, 0x01];
    let few = (0..length).map(|_| judge.random.pick(&few)).collect();
    [vec![0; length], few, half, vec![0xff; length]]
}

/// Flips of the ciphertext that the tag lets pass unchanged, or with flips of its own that were
/// chosen before. With one of them taken back the registers decide again.
pub fn solved(judge: &mut Judge) -> Verdict {
    for tag_bits in TAG_BITS {
        for _ in 0..SOLVED {
            let genuine = Genuine::new(judge, tag_bits, 16);
            let any = judge.random.number() as u32;
            for tag in [0, 1, cut(any, tag_bits), cut(u32::MAX, tag_bits)] {
                accepted_damage(judge, &genuine, tag)?;
            }
        }
    }
    Ok(())
}

/// The first position is flipped in any case, so that there is damage.
fn accepted_damage(judge: &mut Judge, genuine: &Genuine, tag: u32) -> Verdict {
    let rest = genuine.registers[1..].iter().copied();
    let vectors: Vec<u128> = rest.map(u128::from).collect();
    let solved = solve(&vectors, (genuine.registers[0] ^ tag).into());
    judge.holds("the equations have a solution", solved.is_some())?;
    let mut flips = genuine.one(0);
    for position in ones(solved.unwrap_or(0)) {
        add(&mut flips, &genuine.one(1 + position));
    }
    let sum = genuine.sum_of_registers(&flips);
    judge.holds("the registers add up to the tag's flips", sum == tag)?;
    genuine.judged(judge, &flips, tag)?;
    for position in 0..8 * flips.len() {
        add(&mut flips, &genuine.one(position));
        genuine.judged(judge, &flips, tag)?;
        add(&mut flips, &genuine.one(position));
    }
    Ok(())
}

pub fn largest(judge: &mut Judge) -> Verdict {
    for tag_bits in [BORDERS[0], 13, 32] {
        let genuine = Genuine::new(judge, tag_bits, MESSAGE_MAX);
        for flips in choices(judge, MESSAGE_MAX) {
            genuine.both_directions(judge, &flips, &[1])?;
        }
        let last = genuine.one(8 * MESSAGE_MAX - 1);
        genuine.both_directions(judge, &last, &[1])?;
    }
    Ok(())
}
