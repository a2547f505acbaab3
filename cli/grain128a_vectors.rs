//! Table 3 of the paper on Grain-128a.
//!
//! Two of its cells are printed with a digit too few: the second word of the second pre-output, as
//! `3c07eed89161a4d`, and the first word of the third column's macstream, as `1cdb7f1e52da547`.

use crate::sizes::{KEY_SIZE, NONCE_SIZE};

pub struct Column {
    pub key: [u8; KEY_SIZE],
    pub nonce: [u8; NONCE_SIZE],
    pub preoutput: [u64; 5],
    pub authentication: Option<Authentication>,
}

pub struct Authentication {
    pub accumulator: u32,
    pub register: u32,
    pub keystream: [u64; 2],
    pub macstream: [u64; 2],
    /// Of the messages, in their order.
    pub tags: [u32; 5],
}

/// The bits of the messages, as printed.
pub const MESSAGES: [&str; 5] = [
    "",
    "0",
    "1",
    "00010010001101000000",
    "00010010001101000101011001111000100111101",
];

/// The tag of 16 bits of the last message in the last column.
pub const SHORT_TAG: u16 = 0xb196;

const BLANK: [u8; KEY_SIZE] = [0; KEY_SIZE];
const KEY: [u8; KEY_SIZE] = 0x0123456789abcdef123456789abcdef0_u128.to_be_bytes();

const fn zeros_after(first: u8) -> [u8; NONCE_SIZE] {
    [first, 0, 0, 0, 0, 0, 0, 0, 0, 0, 0, 0]
}

const fn digits_after(first: u8) -> [u8; NONCE_SIZE] {
    [
        first, 0x23, 0x45, 0x67, 0x89, 0xab, 0xcd, 0xef, 0x12, 0x34, 0x56, 0x78,
    ]
}

/// The second column, without authentication, and the fourth, with it, are under a key that the
/// calls take.
pub const TABLE_3: [Column; 4] = [
    Column {
        key: BLANK,
        nonce: zeros_after(0x00),
        preoutput: [
            0xc0207f221660650b,
            0x6a952ae26586136f,
            0xa0904140c8621cfe,
            0x8660c0dec0969e94,
            0x36f4ace92cf1ebb7,
        ],
        authentication: None,
    },
    Column {
        key: KEY,
        nonce: digits_after(0x01),
        preoutput: [
            0xf88720c13f46e6a4,
            0x3c07eeed89161a4d,
            0xd73bd6b8be8b6b11,
            0x6879714ebb630e0a,
            0x4c12f0399412982c,
        ],
        authentication: None,
    },
    Column {
        key: BLANK,
        nonce: zeros_after(0x80),
        preoutput: [
            0x564b362219bd90e3,
            0x01f259cf52bf5da9,
            0xdeb1845be6993abd,
            0x2d3c77c4acb90e42,
            0x2640fbd6e8ae642a,
        ],
        authentication: Some(Authentication {
            accumulator: 0x564b3622,
            register: 0x19bd90e3,
            keystream: [0x0d2b1f2ebc83da7e, 0x6658ee3150f9ef47],
            macstream: [0x1cdbc7f1e52da547, 0x36fa252828de82a0],
            tags: [0x4ff6a6c1, 0x653017e4, 0x7c8d8707, 0x522ab34f, 0x4b7821c9],
        }),
    },
    Column {
        key: KEY,
        nonce: digits_after(0x81),
        preoutput: [
            0x7f2acdb7adfb701f,
            0x8d2083b3c32b43f1,
            0x962b3dcabf679378,
            0xdb3536bfc25bed48,
            0x3008e6bcb395a156,
        ],
        authentication: Some(Authentication {
            accumulator: 0x7f2acdb7,
            register: 0xadfb701f,
            keystream: [0xa49d971c976bf596, 0xb45f93e242ded8c1],
            macstream: [0x3015919d61787b5c, 0xd7678db840a6571e],
            tags: [0xd2d1bda8, 0x24dc2d89, 0x89275d96, 0x379d2899, 0x9226b196],
        }),
    },
];

/// Words as bytes, high first.
pub fn bytes(words: &[u64]) -> Vec<u8> {
    words.iter().flat_map(|word| word.to_be_bytes()).collect()
}

/// Three messages of whole bytes whose tags add up to that of a message of any bits.
///
/// The tag of the sum of three strings is the sum of their tags, and the string of a message is its
/// bits and a single 1. For the message `1`:
///
/// ```text
/// 01000000 1
/// 00000000 1
/// 1
/// ```
pub fn summands(message: &str) -> [Vec<u8>; 3] {
    let mut string: Vec<u8> = message.bytes().map(|digit| digit - b'0').collect();
    string.push(1);
    string[0] ^= 1;
    let byte = |bits: &[u8]| (0..8).fold(0, |n, j| n << 1 | bits.get(j).copied().unwrap_or(0));
    let first: Vec<u8> = string.chunks(8).map(byte).collect();
    let zeros = vec![0; first.len()];
    [first, zeros, Vec::new()]
}
