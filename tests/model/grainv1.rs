//! Grain v1.

use crate::{move_down, refuse, Edition, MESSAGE_MAX};

/// The bits of a byte go from the top down.
const ORDER: Edition = Edition::First;

const KEY_SIZE: usize = 10;
const NONCE_SIZE: usize = 8;

type Places = [u8; 80];

/// The LFSR's new bit.
fn linear(s: &Places) -> u8 {
    s[62] ^ s[51] ^ s[38] ^ s[23] ^ s[13] ^ s[0]
}

/// The NFSR's new bit, without the LFSR's place 0.
fn nonlinear(b: &Places) -> u8 {
    let low = b[28] ^ b[21] ^ b[14] ^ b[9] ^ b[0];
    let singles = b[62] ^ b[60] ^ b[52] ^ b[45] ^ b[37] ^ b[33] ^ low;
    let pairs = (b[63] & b[60]) ^ (b[37] & b[33]) ^ (b[15] & b[9]);
    let triples = (b[60] & b[52] & b[45]) ^ (b[33] & b[28] & b[21]);
    let fours = (b[63] & b[45] & b[28] & b[9])
        ^ (b[60] & b[52] & b[37] & b[33])
        ^ (b[63] & b[60] & b[21] & b[15]);
    let fives = (b[63] & b[60] & b[52] & b[45] & b[37]) ^ (b[33] & b[28] & b[21] & b[15] & b[9]);
    let six = b[52] & b[45] & b[37] & b[33] & b[28] & b[21];
    singles ^ pairs ^ triples ^ fours ^ fives ^ six
}

/// h.
fn filter(s: &Places, b: &Places) -> u8 {
    let [x0, x1, x2, x3, x4] = [s[3], s[25], s[46], s[64], b[63]];
    let pairs = (x0 & x3) ^ (x2 & x3) ^ (x3 & x4);
    let with_x0 = (x0 & x1 & x2) ^ (x0 & x2 & x3) ^ (x0 & x2 & x4);
    x1 ^ x4 ^ pairs ^ with_x0 ^ (x1 & x2 & x4) ^ (x2 & x3 & x4)
}

/// The output.
fn output(s: &Places, b: &Places) -> u8 {
    filter(s, b) ^ b[1] ^ b[2] ^ b[4] ^ b[10] ^ b[31] ^ b[43] ^ b[56]
}

struct Generator {
    lfsr: Places,
    nfsr: Places,
}

impl Generator {
    /// From 10 bytes of key and 8 of nonce, after start-up: 160 clocks that feed the output back to
    /// both registers.
    fn started(key: &[u8], nonce: &[u8]) -> Generator {
        let mut generator = Generator {
            lfsr: [1; 80],
            nfsr: [0; 80],
        };
        generator.nfsr.copy_from_slice(&ORDER.bits(key));
        generator.lfsr[..64].copy_from_slice(&ORDER.bits(nonce));
        for _ in 0..160 {
            let z = output(&generator.lfsr, &generator.nfsr);
            generator.clock(z);
        }
        generator
    }

    /// This bit is added to both new ones.
    fn clock(&mut self, fed_back: u8) {
        let new_s = linear(&self.lfsr) ^ fed_back;
        let new_b = self.lfsr[0] ^ nonlinear(&self.nfsr) ^ fed_back;
        move_down(&mut self.lfsr, new_s);
        move_down(&mut self.nfsr, new_b);
    }

    /// A keystream bit, and the clock that goes with it.
    fn next(&mut self) -> u8 {
        let z = output(&self.lfsr, &self.nfsr);
        self.clock(0);
        z
    }
}

/// The first bytes of the keystream.
pub fn keystream(key: &[u8], nonce: &[u8], count: usize) -> Vec<u8> {
    let mut generator = Generator::started(key, nonce);
    let bits: Vec<u8> = (0..8 * count).map(|_| generator.next()).collect();
    ORDER.bytes(&bits)
}

/// The message with the keystream added, or the number of the refusal, where the output has `room`
/// bytes.
pub fn crypt(key: &[u8], nonce: &[u8], message: &[u8], room: usize) -> Result<Vec<u8>, u8> {
    refuse(&[
        (1, key.len() != KEY_SIZE),
        (2, nonce.len() != NONCE_SIZE),
        (4, message.len() > MESSAGE_MAX),
        (6, room < message.len()),
    ])?;
    let mut generator = Generator::started(key, nonce);
    let mut bits = ORDER.bits(message);
    for bit in &mut bits {
        *bit ^= generator.next();
    }
    Ok(ORDER.bytes(&bits))
}
