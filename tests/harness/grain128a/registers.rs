//! The register's contents under a trial's key and nonce, by the model, and tags as numbers.

use super::trial::Trial;
use model::grain128a::Authenticated;

/// The register at each of the first positions of a message, whatever the message.
pub fn contents(trial: &Trial, positions: usize) -> Vec<u32> {
    let mut machine = Authenticated::start(&trial.key, &trial.nonce);
    let register = |_| {
        let content = machine.register();
        machine.absorb(0);
        content
    };
    (0..positions).map(register).collect()
}

/// The last places of a register, as many as the tag has bits.
pub fn cut(content: u32, tag_bits: u32) -> u32 {
    content & u32::MAX >> (32 - tag_bits)
}

/// The bytes that a content of so many places is in a tag.
pub fn spelled(content: u32, tag_bits: u32) -> Vec<u8> {
    let bytes = (content << (32 - tag_bits)).to_be_bytes();
    bytes[..tag_bits.div_ceil(8) as usize].to_vec()
}

/// The content that a tag of 32 bits is.
pub fn read(tag: &[u8]) -> u32 {
    u32::from_be_bytes(tag.try_into().expect("four bytes"))
}
