//! An independent implementation of documents 01 and 02, of both editions, of Grain-128a and of
//! Grain v1: a byte for each register bit, and every bit moved at every clock. Of captures, a reader
//! and a writer. Of signals, a reader that goes bit by bit.

#[path = "model/capture_writer.rs"]
pub mod capture_writer;
#[path = "model/captures.rs"]
pub mod captures;
#[path = "model/frames.rs"]
pub mod frames;
#[path = "model/full_capture.rs"]
pub mod full_capture;
#[path = "model/grain128a.rs"]
pub mod grain128a;
#[path = "model/grainv1.rs"]
pub mod grainv1;
#[path = "model/signals.rs"]
pub mod signals;
#[path = "model/streams.rs"]
pub mod streams;

const KEY_SIZE: usize = 16;
const NONCE_SIZE: usize = 12;
const TAG_SIZE: usize = 8;
const AD_MAX: usize = 65535;
const MESSAGE_MAX: usize = 61440;
const SEALED_MAX: usize = MESSAGE_MAX + TAG_SIZE;

type Places = [u8; 128];

/// L.
fn linear(s: &Places) -> u8 {
    s[0] ^ s[7] ^ s[38] ^ s[70] ^ s[81] ^ s[96]
}

/// F.
fn nonlinear(b: &Places) -> u8 {
    let singles = b[0] ^ b[26] ^ b[56] ^ b[91] ^ b[96];
    let pairs = (b[3] & b[67])
        ^ (b[11] & b[13])
        ^ (b[17] & b[18])
        ^ (b[27] & b[59])
        ^ (b[40] & b[48])
        ^ (b[61] & b[65])
        ^ (b[68] & b[84]);
    let triples = (b[22] & b[24] & b[25]) ^ (b[70] & b[78] & b[82]);
    singles ^ pairs ^ triples ^ (b[88] & b[92] & b[93] & b[95])
}

/// h.
fn filter(s: &Places, b: &Places) -> u8 {
    (b[12] & s[8]) ^ (s[13] & s[20]) ^ (b[95] & s[42]) ^ (s[60] & s[79]) ^ (b[12] & b[95] & s[94])
}

/// y.
fn preoutput(s: &Places, b: &Places) -> u8 {
    filter(s, b) ^ s[93] ^ b[2] ^ b[15] ^ b[36] ^ b[45] ^ b[64] ^ b[73] ^ b[89]
}

/// Moves every bit one place down; the last place takes the new bit.
fn move_down(places: &mut [u8], new: u8) {
    let last = places.len() - 1;
    for place in 0..last {
        places[place] = places[place + 1];
    }
    places[last] = new;
}

/// The editions differ in the order of a byte's bits and in start-up, and in nothing else.
#[derive(Clone, Copy, Debug, PartialEq, Eq)]
pub enum Edition {
    First,
    Second,
}

impl Edition {
    /// The edition of this number, or the number of the refusal.
    pub fn numbered(number: u32) -> Result<Edition, u8> {
        match number {
            1 => Ok(Edition::First),
            2 => Ok(Edition::Second),
            _ => Err(23),
        }
    }

    /// Where bit i of a string stands in its byte: from the top down, or from the lowest up.
    pub fn mask(self, i: usize) -> u8 {
        match self {
            Edition::First => 0x80 >> (i % 8),
            Edition::Second => 0x01 << (i % 8),
        }
    }

    /// From the loaded registers to where running starts, at clock 384 or 512.
    fn start_up(self, machine: &mut Machine, key: &[u8]) {
        let key = self.bits(key);
        match self {
            Edition::First => {
                machine.feed_back(&[0; 256], &[0; 256]);
                machine.fill(&key);
            }
            Edition::Second => {
                machine.feed_back(&[0; 320], &[0; 320]);
                machine.feed_back(&key[64..], &key[..64]);
                machine.fill(&[0; 128]);
            }
        }
    }

    /// The bits of a byte string.
    pub fn bits(self, bytes: &[u8]) -> Vec<u8> {
        let bit = |i| u8::from(bytes[i / 8] & self.mask(i) != 0);
        (0..8 * bytes.len()).map(bit).collect()
    }

    /// The byte string of these bits.
    pub fn bytes(self, bits: &[u8]) -> Vec<u8> {
        let mut bytes = vec![0; bits.len() / 8];
        for (i, bit) in bits.iter().enumerate() {
            bytes[i / 8] |= self.mask(i) * bit;
        }
        bytes
    }
}

pub struct Machine {
    edition: Edition,
    lfsr: Places,
    nfsr: Places,
    accumulator: [u8; 64],
    register: [u8; 64],
}

impl Machine {
    /// The loaded registers: 16 bytes of key, whatever they are, and 12 of nonce.
    pub fn loaded(edition: Edition, key: &[u8], nonce: &[u8]) -> Machine {
        let mut machine = Machine {
            edition,
            lfsr: [1; 128],
            nfsr: [0; 128],
            accumulator: [0; 64],
            register: [0; 64],
        };
        machine.nfsr.copy_from_slice(&edition.bits(key));
        machine.lfsr[..96].copy_from_slice(&edition.bits(nonce));
        machine.lfsr[127] = 0;
        machine
    }

    /// The machine after start-up.
    pub fn start(edition: Edition, key: &[u8], nonce: &[u8]) -> Machine {
        let mut machine = Machine::loaded(edition, key, nonce);
        edition.start_up(&mut machine, key);
        machine
    }

    /// Clocks that feed the pre-output back to both registers, and add these bits too.
    fn feed_back(&mut self, to_lfsr: &[u8], to_nfsr: &[u8]) {
        for (s, b) in to_lfsr.iter().zip(to_nfsr) {
            let y = self.preoutput();
            self.clock(y ^ s, y ^ b);
        }
    }

    /// 128 clocks that add these bits to the LFSR; their pre-outputs fill accumulator and register.
    fn fill(&mut self, to_lfsr: &[u8]) {
        for (j, &s) in to_lfsr.iter().enumerate() {
            let y = self.preoutput();
            match j {
                0..64 => self.accumulator[j] = y,
                _ => self.register[j - 64] = y,
            }
            self.clock(s, 0);
        }
    }

    /// Plain clocks; the last 64 of their pre-outputs, the latest lowest.
    pub fn run(&mut self, clocks: usize) -> u64 {
        (0..clocks).fold(0, |outputs, _| {
            let y = self.preoutput();
            self.clock(0, 0);
            (outputs << 1) | u64::from(y)
        })
    }

    /// The LFSR and the NFSR, two words each, place 0 in the top bit.
    pub fn words(&self) -> [u64; 4] {
        [
            &self.lfsr[..64],
            &self.lfsr[64..],
            &self.nfsr[..64],
            &self.nfsr[64..],
        ]
        .map(number)
    }

    /// The pre-output of the clock to come. Before a bit of the string, that is its keystream bit.
    pub fn preoutput(&self) -> u8 {
        preoutput(&self.lfsr, &self.nfsr)
    }

    fn clock(&mut self, to_lfsr: u8, to_nfsr: u8) {
        let new_s = linear(&self.lfsr) ^ to_lfsr;
        let new_b = self.lfsr[0] ^ nonlinear(&self.nfsr) ^ to_nfsr;
        move_down(&mut self.lfsr, new_s);
        move_down(&mut self.nfsr, new_b);
    }

    /// Uses a bit of the string, in two clocks.
    pub fn absorb(&mut self, bit: u8) {
        self.clock(0, 0);
        let new = self.preoutput();
        self.clock(0, 0);
        if bit == 1 {
            for (sum, place) in self.accumulator.iter_mut().zip(&self.register) {
                *sum ^= place;
            }
        }
        move_down(&mut self.register, new);
    }

    pub fn absorb_bytes(&mut self, string: &[u8]) {
        for bit in self.edition.bits(string) {
            self.absorb(bit);
        }
    }

    /// The authenticator register, which is added to the accumulator if the next bit is 1.
    pub fn register(&self) -> u64 {
        number(&self.register)
    }

    pub fn accumulator(&self) -> u64 {
        number(&self.accumulator)
    }
}

/// Place 0 is the top bit.
fn number(places: &[u8]) -> u64 {
    places.iter().fold(0, |n, &bit| (n << 1) | u64::from(bit))
}

pub fn coded_length(ad_len: usize) -> Vec<u8> {
    match ad_len {
        0..=127 => vec![ad_len as u8],
        128..=255 => vec![0x81, ad_len as u8],
        _ => vec![0x82, (ad_len / 256) as u8, (ad_len % 256) as u8],
    }
}

/// The machine where the message begins.
fn begin(edition: Edition, key: &[u8], nonce: &[u8], coded_length: &[u8], ad: &[u8]) -> Machine {
    let mut machine = Machine::start(edition, key, nonce);
    machine.absorb_bytes(coded_length);
    machine.absorb_bytes(ad);
    machine
}

/// The tag: the accumulator after the final 1.
fn finish(mut machine: Machine) -> Vec<u8> {
    machine.absorb(1);
    machine.edition.bytes(&machine.accumulator)
}

/// The number of the first row that applies.
fn refuse(rows: &[(u8, bool)]) -> Result<(), u8> {
    match rows.iter().find(|(_, applies)| *applies) {
        Some((number, _)) => Err(*number),
        None => Ok(()),
    }
}

/// The sealed payload, or the number of the refusal, where the output has `room` bytes.
pub fn seal(
    edition: u32,
    key: &[u8],
    nonce: &[u8],
    ad: &[u8],
    message: &[u8],
    room: usize,
) -> Result<Vec<u8>, u8> {
    let edition = Edition::numbered(edition)?;
    refuse(&[
        (1, key.len() != KEY_SIZE),
        (2, nonce.len() != NONCE_SIZE),
        (15, key == [0; KEY_SIZE]),
        (3, ad.len() > AD_MAX),
        (4, message.len() > MESSAGE_MAX),
        (6, room < message.len() + TAG_SIZE),
    ])?;
    let coded_length = coded_length(ad.len());
    Ok(payload(edition, key, nonce, &coded_length, ad, message))
}

/// The payload in whose authenticated string the AD's length is coded so. No row is tried.
pub fn payload(
    edition: Edition,
    key: &[u8],
    nonce: &[u8],
    coded_length: &[u8],
    ad: &[u8],
    message: &[u8],
) -> Vec<u8> {
    let mut machine = begin(edition, key, nonce, coded_length, ad);
    let mut ciphertext = edition.bits(message);
    for bit in &mut ciphertext {
        let message_bit = *bit;
        *bit ^= machine.preoutput();
        machine.absorb(message_bit);
    }
    [edition.bytes(&ciphertext), finish(machine)].concat()
}

/// The ciphertext part and the tag part of a sealed input.
pub fn parts(sealed: &[u8]) -> (&[u8], &[u8]) {
    match sealed.len() {
        0..TAG_SIZE => (sealed, &[]),
        length => sealed.split_at(length - TAG_SIZE),
    }
}

/// The message, or the number of the refusal, where the output has `room` bytes.
pub fn open(
    edition: u32,
    key: &[u8],
    nonce: &[u8],
    ad: &[u8],
    sealed: &[u8],
    room: usize,
) -> Result<Vec<u8>, u8> {
    let edition = Edition::numbered(edition)?;
    refuse(&[
        (1, key.len() != KEY_SIZE),
        (2, nonce.len() != NONCE_SIZE),
        (15, key == [0; KEY_SIZE]),
        (3, ad.len() > AD_MAX),
        (4, sealed.len() > SEALED_MAX),
        (5, sealed.len() < TAG_SIZE),
        (6, room + TAG_SIZE < sealed.len()),
    ])?;
    let (ciphertext, tag) = parts(sealed);
    let mut machine = begin(edition, key, nonce, &coded_length(ad.len()), ad);
    let mut message = edition.bits(ciphertext);
    for bit in &mut message {
        *bit ^= machine.preoutput();
        machine.absorb(*bit);
    }
    refuse(&[(7, finish(machine) != tag)])?;
    Ok(edition.bytes(&message))
}
