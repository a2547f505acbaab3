//! Payloads that arrive in pieces, with the stream's state in 64 bytes of the caller's.

use crate::{coded_length, refuse, Edition, Machine};
use crate::{AD_MAX, KEY_SIZE, MESSAGE_MAX, NONCE_SIZE, TAG_SIZE};

/// The edition that is meant where none is named.
const UNNAMED: u32 = 1;

const STATE_SIZE: usize = 64;

/// The registers stand in the state place 0 first, top bit first, whatever the stream's edition is.
const ORDER: Edition = Edition::First;

#[derive(Clone, Copy, Debug, PartialEq, Eq)]
pub enum Kind {
    Sealing,
    Checking,
}

/// What a call that is accepted answers, the state that it leaves, and what it writes.
pub struct Accepted {
    pub clocks: i64,
    pub state: Vec<u8>,
    pub written: Vec<u8>,
}

/// Or the number of the refusal.
pub type Answer = Result<Accepted, u8>;

struct Stream {
    kind: Kind,
    machine: Machine,
    finished: bool,
    ad_len: usize,
    ad_taken: usize,
    message_taken: usize,
}

impl Stream {
    /// What these bytes hold, if that can occur.
    fn read(state: &[u8]) -> Result<Stream, u8> {
        refuse(&[(14, state.len() != STATE_SIZE)])?;
        let count = |at: usize| 256 * usize::from(state[at]) + usize::from(state[at + 1]);
        let stream = Stream {
            kind: match state[48] {
                1 => Kind::Sealing,
                2 => Kind::Checking,
                _ => return Err(14),
            },
            machine: machine(state)?,
            finished: match state[49] {
                0 => false,
                1 => true,
                _ => return Err(14),
            },
            ad_len: count(50),
            ad_taken: count(52),
            message_taken: count(54),
        };
        refuse(&[
            (14, stream.ad_taken > stream.ad_len),
            (14, stream.message_taken > 0 && !stream.ad_is_complete()),
            (14, stream.message_taken > MESSAGE_MAX),
            (14, stream.finished && !stream.ad_is_complete()),
            (14, state[57..].iter().any(|&byte| byte != 0)),
        ])?;
        Ok(stream)
    }

    fn write(&self) -> Vec<u8> {
        let registers = [
            ORDER.bytes(&self.machine.lfsr),
            ORDER.bytes(&self.machine.nfsr),
            ORDER.bytes(&self.machine.accumulator),
            ORDER.bytes(&self.machine.register),
        ];
        let mut state = registers.concat();
        state.push(match self.kind {
            Kind::Sealing => 1,
            Kind::Checking => 2,
        });
        state.push(u8::from(self.finished));
        for count in [self.ad_len, self.ad_taken, self.message_taken] {
            state.push((count / 256) as u8);
            state.push((count % 256) as u8);
        }
        state.push(match self.machine.edition {
            Edition::First => 1,
            Edition::Second => 2,
        });
        state.resize(STATE_SIZE, 0);
        state
    }

    fn ad_is_complete(&self) -> bool {
        self.ad_taken == self.ad_len
    }

    /// Those of start-up, and two for each bit of the string that is taken.
    fn clocks(&self) -> i64 {
        let start_up = match self.machine.edition {
            Edition::First => 384,
            Edition::Second => 512,
        };
        let bytes = coded_length(self.ad_len).len() + self.ad_taken + self.message_taken;
        let bits = 8 * bytes + usize::from(self.finished);
        start_up + 2 * bits as i64
    }

    fn accepted(&self, written: Vec<u8>) -> Answer {
        Ok(Accepted {
            clocks: self.clocks(),
            state: self.write(),
            written,
        })
    }

    /// An open stream of this kind.
    fn open(kind: Kind, state: &[u8]) -> Result<Stream, u8> {
        let stream = Stream::read(state)?;
        refuse(&[(13, stream.kind != kind), (13, stream.finished)])?;
        Ok(stream)
    }

    /// An open stream of this kind that has its whole AD.
    fn past_ad(kind: Kind, state: &[u8]) -> Result<Stream, u8> {
        let stream = Stream::open(kind, state)?;
        refuse(&[(13, !stream.ad_is_complete())])?;
        Ok(stream)
    }

    fn too_long(&self, piece: &[u8]) -> bool {
        self.message_taken + piece.len() > MESSAGE_MAX
    }

    /// Takes a piece of the message, or of its ciphertext, and gives the other.
    fn take(&mut self, piece: &[u8]) -> Vec<u8> {
        let edition = self.machine.edition;
        let mut given = edition.bits(piece);
        for bit in &mut given {
            let taken = *bit;
            *bit ^= self.machine.preoutput();
            self.machine.absorb(match self.kind {
                Kind::Sealing => taken,
                Kind::Checking => *bit,
            });
        }
        self.message_taken += piece.len();
        edition.bytes(&given)
    }

    /// Takes the final 1 and gives the tag.
    fn finish(&mut self) -> Vec<u8> {
        self.machine.absorb(1);
        self.finished = true;
        self.machine.edition.bytes(&self.machine.accumulator)
    }
}

/// The registers of a state, and its edition.
fn machine(state: &[u8]) -> Result<Machine, u8> {
    let mut machine = Machine {
        edition: Edition::numbered(state[56].into()).map_err(|_| 14)?,
        lfsr: [0; 128],
        nfsr: [0; 128],
        accumulator: [0; 64],
        register: [0; 64],
    };
    machine.lfsr.copy_from_slice(&ORDER.bits(&state[..16]));
    machine.nfsr.copy_from_slice(&ORDER.bits(&state[16..32]));
    machine
        .accumulator
        .copy_from_slice(&ORDER.bits(&state[32..40]));
    machine
        .register
        .copy_from_slice(&ORDER.bits(&state[40..48]));
    Ok(machine)
}

pub fn begin(
    kind: Kind,
    edition: Option<u32>,
    state_len: usize,
    key: &[u8],
    nonce: &[u8],
    ad_len: usize,
) -> Answer {
    let edition = Edition::numbered(edition.unwrap_or(UNNAMED))?;
    refuse(&[
        (1, key.len() != KEY_SIZE),
        (2, nonce.len() != NONCE_SIZE),
        (15, key == [0; KEY_SIZE]),
        (3, ad_len > AD_MAX),
        (14, state_len != STATE_SIZE),
    ])?;
    let mut machine = Machine::start(edition, key, nonce);
    machine.absorb_bytes(&coded_length(ad_len));
    let stream = Stream {
        kind,
        machine,
        finished: false,
        ad_len,
        ad_taken: 0,
        message_taken: 0,
    };
    stream.accepted(Vec::new())
}

pub fn ad(kind: Kind, state: &[u8], piece: &[u8]) -> Answer {
    let mut stream = Stream::open(kind, state)?;
    refuse(&[(13, stream.ad_taken + piece.len() > stream.ad_len)])?;
    stream.machine.absorb_bytes(piece);
    stream.ad_taken += piece.len();
    stream.accepted(Vec::new())
}

/// Where the output has `room` bytes.
pub fn message(state: &[u8], piece: &[u8], room: usize) -> Answer {
    let mut stream = Stream::past_ad(Kind::Sealing, state)?;
    refuse(&[(4, stream.too_long(piece)), (6, room < piece.len())])?;
    let ciphertext = stream.take(piece);
    stream.accepted(ciphertext)
}

pub fn ciphertext(state: &[u8], piece: &[u8]) -> Answer {
    let mut stream = Stream::past_ad(Kind::Checking, state)?;
    refuse(&[(4, stream.too_long(piece))])?;
    stream.take(piece);
    stream.accepted(Vec::new())
}

/// Where the output has `room` bytes.
pub fn sealing_finish(state: &[u8], room: usize) -> Answer {
    let mut stream = Stream::past_ad(Kind::Sealing, state)?;
    refuse(&[(6, room < TAG_SIZE)])?;
    let tag = stream.finish();
    stream.accepted(tag)
}

pub fn checking_finish(state: &[u8], tag: &[u8]) -> Answer {
    let mut stream = Stream::past_ad(Kind::Checking, state)?;
    refuse(&[(5, tag.len() != TAG_SIZE)])?;
    let recomputed = stream.finish();
    refuse(&[(7, recomputed != tag)])?;
    stream.accepted(Vec::new())
}
