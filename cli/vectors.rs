//! Inputs with stored answers.

use crate::sizes::{AD_MAX, KEY_SIZE, MESSAGE_MAX, NONCE_SIZE};

/// A vector of the designers' paper, appendix A, of the first edition. Its string is as printed:
/// without a coded AD length, and with zeros after the final 1, which add nothing to the tag.
pub struct Published {
    pub key: [u8; KEY_SIZE],
    pub nonce: [u8; NONCE_SIZE],
    pub keystream: u128,
    pub string: &'static [u8],
    pub tag: u64,
    /// Three strings that sum to the published one; none where the key is the blank one, which
    /// sealing refuses.
    pub summands: Option<[Summand; 3]>,
}

/// A string that sealing authenticates: the AD begins with `ad`, and all the rest of AD and message
/// is zeros.
///
/// Sealing always begins with a coded AD length, so no call authenticates a published string. But
/// under one key and nonce the tag of the sum of three strings is the sum of their tags, and three
/// strings that sealing authenticates sum to the published one. For the second vector, as bytes and
/// the final 1:
///
/// ```text
/// 81 80 00 .. 00  1
/// 7e 80 00 .. 00  1
/// 00  1
/// ```
pub struct Summand {
    pub ad: &'static [u8],
    pub ad_len: usize,
    pub message_len: usize,
}

impl Summand {
    pub fn ad(&self) -> Vec<u8> {
        let mut ad = self.ad.to_vec();
        ad.resize(self.ad_len, 0);
        ad
    }

    pub fn message(&self) -> Vec<u8> {
        vec![0; self.message_len]
    }
}

const fn summand(ad: &'static [u8], ad_len: usize, message_len: usize) -> Summand {
    Summand {
        ad,
        ad_len,
        message_len,
    }
}

/// The first tag is printed with a digit too many, `aaab555c073e67664`.
pub const PUBLISHED: [Published; 2] = [
    Published {
        key: [0; KEY_SIZE],
        nonce: [0; NONCE_SIZE],
        keystream: 0xc800a52f948b89b85cee6cfd8571f90f,
        string: &[0x80],
        tag: 0xaab555c073e67664,
        summands: None,
    },
    Published {
        key: 0x0123456789abcdef123456789abcdef0_u128.to_be_bytes(),
        nonce: [
            0x01, 0x23, 0x45, 0x67, 0x89, 0xab, 0xcd, 0xef, 0x12, 0x34, 0x56, 0x78,
        ],
        keystream: 0xc2b918c6baf6dea0865200d46858a37b,
        string: &[0xff, 0x80],
        tag: 0x782f4c4a8907ba7f,
        summands: Some([
            summand(&[], 128, 0),
            summand(&[0x80], 126, 3),
            summand(&[], 0, 0),
        ]),
    },
];

/// What the first edition makes under the blank key, and what versions before 3.0.0 sealed.
pub struct UnderBlankKey {
    pub nonce: [u8; NONCE_SIZE],
    pub ad: &'static [u8],
    pub message: &'static [u8],
    pub payload: &'static [u8],
}

pub const UNDER_BLANK_KEY: UnderBlankKey = UnderBlankKey {
    nonce: [0, 0, 0, 0, 0, 0, 0, 0, 0, 0, 0, 1],
    ad: &[0x07, 0xe8],
    message: b"engine 2400 rpm",
    payload: &[
        0x74, 0x5a, 0xe7, 0xdf, 0x99, 0xe5, 0x33, 0x57, 0xc1, 0xe7, 0x37, 0x55, 0xb3, 0x25, 0x1b,
        0x58, 0xe3, 0x60, 0xa2, 0xa0, 0xcc, 0xdb, 0x9d,
    ],
};

/// A sealed payload of counting bytes: key, nonce, AD and message are each 00 01 02 and so on. The
/// answers are those of `tests/model.rs`.
pub struct Sealed {
    pub ad_len: usize,
    pub message_len: usize,
    /// The payload in hex, of edition 1 and of edition 2: all of it, or the last 16 bytes of a long
    /// one.
    pub ends: [&'static str; 2],
}

const fn sealed(
    ad_len: usize,
    message_len: usize,
    first: &'static str,
    second: &'static str,
) -> Sealed {
    Sealed {
        ad_len,
        message_len,
        ends: [first, second],
    }
}

impl Sealed {
    /// The number of each edition, and what its payload ends with.
    pub fn by_edition(&self) -> impl Iterator<Item = (u32, &'static str)> {
        (1..).zip(self.ends)
    }
}

pub const SEALED: [Sealed; 9] = [
    sealed(0, 0, "97ce60c2f47910e8", "d51fd5d16177b434"),
    sealed(0, 1, "f0675373bd7136adec", "21aaa5a068ea941db3"),
    sealed(1, 0, "06caa4e3901529b6", "99b7cdbf488f8dc0"),
    sealed(
        8,
        16,
        "47fd828e70ea670e6ebe4f5a8e9c9437a7da12cc950440d2",
        "96d1bda7ae11f0ba88bd33ea869b83a6d9240cb51acdec36",
    ),
    sealed(127, 3, "a28985ecba39968627ff89", "5f478f4b94d2ced13b24c2"),
    sealed(128, 3, "879725b1c85dad6c351e4d", "8d1144d627f52472a29399"),
    sealed(
        255,
        5,
        "bfd751df1134fb8775300b3be8",
        "fbca9e335da83f05610c665e61",
    ),
    sealed(
        256,
        5,
        "53dd1742b35db39776db2d3b69",
        "9c315b20baa956536b2061fcca",
    ),
    sealed(
        AD_MAX,
        MESSAGE_MAX,
        "66457539f7c2bb922e7e7a4f76b33c0a",
        "7aa6b6c0490ec4763ce510d670a1f608",
    ),
];

/// The data field of a frame that seals counting bytes: key, nonce and message are each 00 01 02
/// and so on. Its ciphertext and tag are what sealing gives with the AD of the frame.
pub struct Framed {
    pub identifier: u32,
    pub message_len: usize,
    /// In hex, of edition 1 and of edition 2.
    pub fields: [&'static str; 2],
}

impl Framed {
    /// The number of each edition, and its data field.
    pub fn by_edition(&self) -> impl Iterator<Item = (u32, &'static str)> {
        (1..).zip(self.fields)
    }
}

pub const FRAMED: [Framed; 4] = [
    Framed {
        identifier: 0x123,
        message_len: 0,
        fields: ["0095a47115559ba805000000", "0089818c240de1b0ab000000"],
    },
    Framed {
        identifier: 0x7ff,
        message_len: 3,
        fields: ["0338de8561163472d8919047", "038fb1337b3a1387ff6e38fc"],
    },
    Framed {
        identifier: 0x18da_f110,
        message_len: 40,
        fields: [
            "2838de8544f8858b73e768036dbb485f8d818b2a729561e66a84388a90597c9c\
             8ec755f889b228416cd2ff1111c1ae6554000000000000000000000000000000",
            "288fb13395d4baa2ad1cffb78bb834ef85869cbb6dab53d048ab5af0cc10eb43\
             531ce8dc89ec16ea32021cdeaeb5a98d8f000000000000000000000000000000",
        ],
    },
    Framed {
        identifier: 0x1fff_ffff,
        message_len: 55,
        fields: [
            "3738de8544f8858b73e768036dbb485f8d818b2a729561e66a84388a90597c9c\
             8ec755f889b228416c12b61ed7656e1d3b14f0460ba82e89ad1d8c7ccf709b2b",
            "378fb13395d4baa2ad1cffb78bb834ef85869cbb6dab53d048ab5af0cc10eb43\
             531ce8dc89ec16ea32a57bd99188945820bc8074d0d997facb3c24f653c0e11c",
        ],
    },
];

/// The bytes 00 01 02 .., beginning again after ff.
pub fn counting(count: usize) -> Vec<u8> {
    (0..count).map(|i| i as u8).collect()
}
