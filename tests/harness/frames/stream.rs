//! What a frame's key and nonce give at each position of its authenticated string, whatever the
//! message, by the model.

use super::trial::FrameTrial;
use super::LONGEST;
use crate::registers;
use crate::trial::Trial;
use model::Machine;

pub struct Stream {
    sealing: Trial,
    /// The string's bytes ahead of the message.
    ahead: Vec<u8>,
    /// The accumulator before the string.
    accumulator: u64,
    registers: Vec<u64>,
    keystream: Vec<u8>,
}

impl Stream {
    /// As far as the longest message and the final 1.
    pub fn new(making: &FrameTrial) -> Stream {
        let sealing = making.sealing();
        let ahead = [&model::coded_length(sealing.ad.len()), &sealing.ad[..]].concat();
        let positions = 8 * (ahead.len() + LONGEST) + 1;
        let mut machine = Machine::start(sealing.known_edition(), &sealing.key, &sealing.nonce);
        let accumulator = machine.accumulator();
        let step = |_| {
            let here = (machine.register(), machine.preoutput());
            machine.absorb(0);
            here
        };
        let (registers, keystream) = (0..positions).map(step).unzip();
        Stream {
            sealing,
            ahead,
            accumulator,
            registers,
            keystream,
        }
    }

    /// The ciphertext of a message, or the message of a ciphertext.
    pub fn enciphered(&self, bytes: &[u8]) -> Vec<u8> {
        let edition = self.sealing.known_edition();
        let keystream = &self.keystream[8 * self.ahead.len()..];
        let bits = edition.bits(bytes);
        let sum: Vec<u8> = bits.iter().zip(keystream).map(|(a, b)| a ^ b).collect();
        edition.bytes(&sum)
    }

    pub fn tag(&self, message: &[u8]) -> Vec<u8> {
        let string = [&self.ahead, message].concat();
        let mut bits = self.sealing.known_edition().bits(&string);
        bits.push(1);
        let sum = registers::sum(&self.registers, &bits);
        registers::spelled(&self.sealing, self.accumulator ^ sum)
    }

    /// Ciphertext and tag.
    pub fn sealed(&self, message: &[u8]) -> Vec<u8> {
        [self.enciphered(message), self.tag(message)].concat()
    }
}
