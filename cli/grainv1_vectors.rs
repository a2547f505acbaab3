//! The designers' vectors of Grain v1.

use crate::sizes::{GRAINV1_KEY_SIZE, GRAINV1_NONCE_SIZE};

pub struct Vector {
    pub key: [u8; GRAINV1_KEY_SIZE],
    pub nonce: [u8; GRAINV1_NONCE_SIZE],
    pub keystream: [u8; 10],
}

/// As they are published: the first bit of a byte is its lowest.
pub const PUBLISHED: [Vector; 2] = [
    Vector {
        key: [0; GRAINV1_KEY_SIZE],
        nonce: [0; GRAINV1_NONCE_SIZE],
        keystream: [0xde, 0xe9, 0x31, 0xcf, 0x16, 0x62, 0xa7, 0x2f, 0x77, 0xd0],
    },
    Vector {
        key: [0x01, 0x23, 0x45, 0x67, 0x89, 0xab, 0xcd, 0xef, 0x12, 0x34],
        nonce: [0x01, 0x23, 0x45, 0x67, 0x89, 0xab, 0xcd, 0xef],
        keystream: [0x7f, 0x36, 0x2b, 0xd3, 0xf7, 0xab, 0xae, 0x20, 0x36, 0x64],
    },
];

impl Vector {
    /// With the bits of every byte turned round, as the call takes and gives them: for it the first
    /// bit of a byte is the top one.
    pub fn turned(&self) -> Vector {
        Vector {
            key: self.key.map(u8::reverse_bits),
            nonce: self.nonce.map(u8::reverse_bits),
            keystream: self.keystream.map(u8::reverse_bits),
        }
    }
}
