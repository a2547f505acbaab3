//! The authenticator register's contents under a trial's key and nonce, by the model.

use crate::trial::Trial;
use model::Machine;

/// The register at each of the first positions of a string, whatever the string.
pub fn contents(trial: &Trial, positions: usize) -> Vec<u64> {
    let mut machine = Machine::start(trial.known_edition(), &trial.key, &trial.nonce);
    let register = |_| {
        let content = machine.register();
        machine.absorb(0);
        content
    };
    (0..positions).map(register).collect()
}

/// The bytes that such a content is in a tag.
pub fn spelled(trial: &Trial, content: u64) -> Vec<u8> {
    let bits: Vec<u8> = (0..64).map(|j| (content >> (63 - j) & 1) as u8).collect();
    trial.known_edition().bytes(&bits)
}

/// The content that a tag's bytes are.
pub fn read(trial: &Trial, tag: &[u8]) -> u64 {
    let bits = trial.known_edition().bits(tag);
    bits.iter().fold(0, |n, &bit| n << 1 | u64::from(bit))
}

/// The registers at the positions where these bits are 1, added up.
pub fn sum(contents: &[u64], bits: &[u8]) -> u64 {
    let ones = contents.iter().zip(bits).filter(|(_, &bit)| bit == 1);
    ones.fold(0, |sum, (content, _)| sum ^ content)
}
