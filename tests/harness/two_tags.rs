//! Two pairs of AD and message of any lengths, under one key and nonce. Their tags add up to the
//! registers at the positions where the two authenticated strings differ, the shorter one continued
//! with zeros. Opening accepts one pair's tag under the other's AD and ciphertext exactly when that
//! sum is zero.

use crate::equations::{ones, solve};
use crate::judge::{Judge, Verdict};
use crate::registers;
use crate::trial::Trial;
use tikhoplav::archive::Call;
use tikhoplav::sizes::{AD_MAX, MESSAGE_MAX};

const PAIRS: usize = 1_000;
const COLLISIONS: usize = 200;

/// The bytes of the second pair that are chosen so that its tag is that of the first.
const CHOSEN: usize = 16;

const AD_LENS: [usize; 11] = [0, 1, 2, 7, 30, 127, 128, 140, 255, 256, 300];

pub fn random(judge: &mut Judge) -> Verdict {
    for _ in 0..PAIRS {
        let first = random_sealing(judge, 0);
        let second = random_sealing(judge, 0).under(&first);
        compare(judge, &first, &second)?;
    }
    Ok(())
}

/// Lengths at the ends of what is legal, and pairs that differ in nothing or in little.
pub fn chosen(judge: &mut Judge) -> Verdict {
    let lens = [(0, 0), (0, 1), (1, 0), (1, 1), (127, 3), (128, 3)];
    let longest = [(0, MESSAGE_MAX), (AD_MAX, 0), (AD_MAX, MESSAGE_MAX)];
    for (ad_len, message_len) in lens.into_iter().chain(longest) {
        let first = judge.sealing(0, 0);
        let second = judge.sealing(ad_len, message_len).under(&first);
        compare(judge, &first, &second)?;
        compare(judge, &second, &first)?;
        compare(judge, &second, &second.clone())?;
        if message_len < MESSAGE_MAX {
            compare(judge, &second, &longer(&second))?;
        }
    }
    Ok(())
}

/// Pairs of other lengths with one tag.
pub fn colliding(judge: &mut Judge) -> Verdict {
    for _ in 0..COLLISIONS {
        let first = random_sealing(judge, 0);
        let second = random_sealing(judge, CHOSEN).under(&first);
        collide(judge, &first, second)?;
    }
    let first = judge.sealing(0, 0);
    let second = judge.sealing(AD_MAX, MESSAGE_MAX).under(&first);
    collide(judge, &first, second)
}

/// The message with a byte more, whose first bit stands where the other string has its final 1.
fn longer(sealing: &Trial) -> Trial {
    let final_1 = sealing.known_edition().mask(0);
    Trial {
        data: [&sealing.data[..], &[final_1]].concat(),
        lent: [&sealing.lent[..], &[0]].concat(),
        ..sealing.clone()
    }
}

fn random_sealing(judge: &mut Judge, at_least: usize) -> Trial {
    let ad_len = judge.random.pick(&AD_LENS);
    let message_len = judge.random.below(60) + at_least.saturating_sub(ad_len);
    judge.sealing(ad_len, message_len)
}

/// The sum of the registers where the two strings differ is that of the tags, and decides whether
/// the first one's tag opens under the second's AD and ciphertext. The first one's tag with that
/// sum in it always does.
fn compare(judge: &mut Judge, first: &Trial, second: &Trial) -> Verdict {
    let sum = sum_of_registers(first, second);
    let first_tag = tag(first);
    let sums_agree = first_tag ^ tag(second) == sum;
    judge.holds("the tags add up to the registers", sums_agree)?;
    let moved = substituted(judge, second, first_tag);
    match sum {
        0 => judge.expect(&moved, &moved.success(&second.data))?,
        _ => judge.expect(&moved, &moved.refusal(7))?,
    }
    let mended = substituted(judge, second, first_tag ^ sum);
    judge.expect(&mended, &mended.success(&second.data))
}

/// Chooses some bytes of the second pair so that its tag is that of the first. With a bit of them
/// changed again, it is not.
fn collide(judge: &mut Judge, first: &Trial, mut second: Trial) -> Verdict {
    let bytes = second.ad.len() + second.data.len();
    let begin = judge.random.below(bytes - CHOSEN + 1);
    let position = 8 * (model::coded_length(second.ad.len()).len() + begin);
    let contents = registers::contents(first, position + 8 * CHOSEN);
    let chosen = contents[position..].iter().copied();
    let vectors: Vec<u128> = chosen.map(u128::from).collect();
    let solved = solve(&vectors, sum_of_registers(first, &second).into());
    judge.holds("the 64 equations have a solution", solved.is_some())?;
    for bit in ones(solved.unwrap_or(0)) {
        flip(&mut second, 8 * begin + bit);
    }
    compare(judge, first, &second)?;
    judge.holds("the tags are equal", tag(first) == tag(&second))?;
    for bit in [0, 1, 8 * CHOSEN - 1] {
        flip(&mut second, 8 * begin + bit);
        let moved = substituted(judge, &second, tag(first));
        judge.expect(&moved, &moved.refusal(7))?;
        flip(&mut second, 8 * begin + bit);
    }
    Ok(())
}

/// The tag that the archive gives.
fn tag(sealing: &Trial) -> u64 {
    let out = sealing.by_archive().out;
    registers::read(sealing, &out[sealing.data.len()..])
}

/// The opening of a sealing's ciphertext with another tag behind it.
fn substituted(judge: &mut Judge, sealing: &Trial, tag: u64) -> Trial {
    let mut data = sealing.by_archive().out;
    data.truncate(sealing.data.len());
    data.extend(registers::spelled(sealing, tag));
    let room = sealing.data.len() + judge.random.below(9);
    Trial {
        call: Call::Open,
        data,
        lent: judge.random.bytes(room),
        ..sealing.clone()
    }
}

fn sum_of_registers(first: &Trial, second: &Trial) -> u64 {
    let (s, t) = (string(first), string(second));
    let bit = |string: &[u8], position| string.get(position).copied().unwrap_or(0);
    let length = s.len().max(t.len());
    let differences: Vec<u8> = (0..length).map(|i| bit(&s, i) ^ bit(&t, i)).collect();
    registers::sum(&registers::contents(first, length), &differences)
}

/// The authenticated string, a byte for each bit.
fn string(sealing: &Trial) -> Vec<u8> {
    let coded_length = model::coded_length(sealing.ad.len());
    let bytes = [&coded_length, &sealing.ad[..], &sealing.data].concat();
    let mut string = sealing.known_edition().bits(&bytes);
    string.push(1);
    string
}

/// Flips a bit of AD and message, counted from the first bit of the AD.
fn flip(sealing: &mut Trial, bit: usize) {
    let (byte, mask) = (bit / 8, sealing.known_edition().mask(bit));
    match byte.checked_sub(sealing.ad.len()) {
        None => sealing.ad[byte] ^= mask,
        Some(byte) => sealing.data[byte] ^= mask,
    }
}
