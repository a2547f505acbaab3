//! Grain-128a, with and without authentication.

use crate::{move_down, number, refuse, Edition, Machine};
use crate::{KEY_SIZE, MESSAGE_MAX, NONCE_SIZE};

/// The bits of a byte go from the top down.
const ORDER: Edition = Edition::First;

/// The places of accumulator and register, and the bits of the longest tag.
const PLACES: usize = 32;

/// The generator after start-up: 256 clocks that feed the pre-output back. The clock to come gives y_0.
fn started(key: &[u8], nonce: &[u8]) -> Machine {
    let mut generator = Machine::loaded(ORDER, key, nonce);
    generator.feed_back(&[0; 256], &[0; 256]);
    generator
}

/// A pre-output, and the clock that goes with it.
fn next(generator: &mut Machine) -> u8 {
    let y = generator.preoutput();
    generator.clock(0, 0);
    y
}

/// The first pre-outputs after start-up.
pub fn preoutputs(key: &[u8], nonce: &[u8], count: usize) -> Vec<u8> {
    let mut generator = started(key, nonce);
    (0..count).map(|_| next(&mut generator)).collect()
}

/// The authenticated mode.
pub struct Authenticated {
    generator: Machine,
    accumulator: [u8; PLACES],
    register: [u8; PLACES],
}

impl Authenticated {
    /// From 16 bytes of key and 12 of nonce, whatever they are.
    pub fn start(key: &[u8], nonce: &[u8]) -> Authenticated {
        let mut generator = started(key, nonce);
        Authenticated {
            accumulator: [(); PLACES].map(|()| next(&mut generator)),
            register: [(); PLACES].map(|()| next(&mut generator)),
            generator,
        }
    }

    /// The keystream bit of the string's next bit.
    pub fn keystream(&self) -> u8 {
        self.generator.preoutput()
    }

    /// Uses a bit of the string, in two clocks. The second one's pre-output goes to the register.
    pub fn absorb(&mut self, bit: u8) {
        self.generator.clock(0, 0);
        let new = next(&mut self.generator);
        if bit == 1 {
            for (sum, place) in self.accumulator.iter_mut().zip(&self.register) {
                *sum ^= place;
            }
        }
        move_down(&mut self.register, new);
    }

    /// The register, which is added to the accumulator if the next bit is 1.
    pub fn register(&self) -> u32 {
        number(&self.register) as u32
    }

    pub fn accumulator(&self) -> u32 {
        number(&self.accumulator) as u32
    }

    /// The accumulator's last places after the final 1, and zeros up to a whole byte.
    pub fn finish(mut self, tag_bits: u32) -> Vec<u8> {
        self.absorb(1);
        let mut tag = self.accumulator[PLACES - tag_bits as usize..].to_vec();
        tag.resize(8 * tag_size(tag_bits), 0);
        ORDER.bytes(&tag)
    }
}

/// The whole bytes that hold a tag.
pub fn tag_size(tag_bits: u32) -> usize {
    tag_bits.div_ceil(8) as usize
}

/// Bit 0 of the nonce.
fn nonce_bit(nonce: &[u8]) -> u8 {
    nonce.first().map_or(0, |byte| byte >> 7)
}

fn no_tag_length(tag_bits: u32) -> bool {
    !(1..=PLACES as u32).contains(&tag_bits)
}

/// Ciphertext and tag. No row is tried.
pub fn payload(key: &[u8], nonce: &[u8], tag_bits: u32, message: &[u8]) -> Vec<u8> {
    let mut machine = Authenticated::start(key, nonce);
    let mut ciphertext = ORDER.bits(message);
    for bit in &mut ciphertext {
        let message_bit = *bit;
        *bit ^= machine.keystream();
        machine.absorb(message_bit);
    }
    [ORDER.bytes(&ciphertext), machine.finish(tag_bits)].concat()
}

/// The sealed payload, or the number of the refusal, where the output has `room` bytes.
pub fn seal(
    key: &[u8],
    nonce: &[u8],
    tag_bits: u32,
    message: &[u8],
    room: usize,
) -> Result<Vec<u8>, u8> {
    refuse(&[
        (1, key.len() != KEY_SIZE),
        (2, nonce.len() != NONCE_SIZE),
        (15, key == [0; KEY_SIZE]),
        (19, nonce_bit(nonce) != 1),
        (20, no_tag_length(tag_bits)),
        (4, message.len() > MESSAGE_MAX),
        (6, room < message.len() + tag_size(tag_bits)),
    ])?;
    Ok(payload(key, nonce, tag_bits, message))
}

/// The message, or the number of the refusal, where the output has `room` bytes.
pub fn open(
    key: &[u8],
    nonce: &[u8],
    tag_bits: u32,
    sealed: &[u8],
    room: usize,
) -> Result<Vec<u8>, u8> {
    let tag_size = tag_size(tag_bits);
    refuse(&[
        (1, key.len() != KEY_SIZE),
        (2, nonce.len() != NONCE_SIZE),
        (15, key == [0; KEY_SIZE]),
        (19, nonce_bit(nonce) != 1),
        (20, no_tag_length(tag_bits)),
        (4, sealed.len() > MESSAGE_MAX + tag_size),
        (5, sealed.len() < tag_size),
        (6, room + tag_size < sealed.len()),
    ])?;
    let (ciphertext, tag) = sealed.split_at(sealed.len() - tag_size);
    let mut machine = Authenticated::start(key, nonce);
    let mut message = ORDER.bits(ciphertext);
    for bit in &mut message {
        *bit ^= machine.keystream();
        machine.absorb(*bit);
    }
    refuse(&[(7, machine.finish(tag_bits) != tag)])?;
    Ok(ORDER.bytes(&message))
}

/// The mode without authentication: every pre-output is a keystream bit.
pub fn crypt(key: &[u8], nonce: &[u8], message: &[u8], room: usize) -> Result<Vec<u8>, u8> {
    refuse(&[
        (1, key.len() != KEY_SIZE),
        (2, nonce.len() != NONCE_SIZE),
        (15, key == [0; KEY_SIZE]),
        (19, nonce_bit(nonce) != 0),
        (4, message.len() > MESSAGE_MAX),
        (6, room < message.len()),
    ])?;
    let mut generator = started(key, nonce);
    let mut bits = ORDER.bits(message);
    for bit in &mut bits {
        *bit ^= next(&mut generator);
    }
    Ok(ORDER.bytes(&bits))
}
