//! Inputs of the selftest, and the calls on them.

use tikhoplav::archive::Call;
use tikhoplav::sizes::{KEY_SIZE, NONCE_SIZE, TAG_SIZE};
use tikhoplav::vectors::counting;

pub struct Job {
    pub key: Vec<u8>,
    pub nonce: Vec<u8>,
    pub ad: Vec<u8>,
    pub message: Vec<u8>,
}

/// An output as it is lent to a call.
pub fn lent(room: usize) -> Vec<u8> {
    vec![0xa5; room]
}

impl Job {
    /// Everything counts 00 01 02 and so on.
    pub fn counting(ad_len: usize, message_len: usize) -> Job {
        Job {
            key: counting(KEY_SIZE),
            nonce: counting(NONCE_SIZE),
            ad: counting(ad_len),
            message: counting(message_len),
        }
    }

    fn payload_len(&self) -> usize {
        self.message.len() + TAG_SIZE
    }

    /// The answer of a call that names the edition, and the output of this room afterwards.
    fn run(&self, call: Call, edition: u32, data: &[u8], room: usize) -> (i64, Vec<u8>) {
        let mut out = lent(room);
        let answer = call.run(edition, &self.key, &self.nonce, &self.ad, data, &mut out);
        (answer, out)
    }

    /// The same by the call that names none.
    fn run_unnamed(&self, call: Call, data: &[u8], room: usize) -> (i64, Vec<u8>) {
        let mut out = lent(room);
        let answer = call.run_unnamed(&self.key, &self.nonce, &self.ad, data, &mut out);
        (answer, out)
    }

    /// The sealed payload, where sealing fills an output of exactly its length.
    pub fn seal(&self, edition: u32) -> Option<Vec<u8>> {
        let (answer, out) = self.run(Call::Seal, edition, &self.message, self.payload_len());
        (answer == out.len() as i64).then_some(out)
    }

    /// Sealing is refused with this number, and nothing is written.
    pub fn seal_refused(&self, edition: u32, number: i64) -> bool {
        let room = self.payload_len();
        self.run(Call::Seal, edition, &self.message, room) == (-number, lent(room))
    }

    /// The message comes out.
    pub fn opens(&self, edition: u32, sealed: &[u8]) -> bool {
        let room = self.message.len();
        self.run(Call::Open, edition, sealed, room) == (room as i64, self.message.clone())
    }

    /// Opening is refused with this number, and nothing is written. There is room for the message.
    pub fn open_refused(&self, edition: u32, sealed: &[u8], number: i64) -> bool {
        let room = self.message.len();
        self.run(Call::Open, edition, sealed, room) == (-number, lent(room))
    }

    /// The call that names no edition seals to this payload.
    pub fn seals_unnamed(&self, payload: &[u8]) -> bool {
        let sealed = self.run_unnamed(Call::Seal, &self.message, self.payload_len());
        sealed == (payload.len() as i64, payload.to_vec())
    }

    /// The call that names no edition opens this payload.
    pub fn opens_unnamed(&self, sealed: &[u8]) -> bool {
        let room = self.message.len();
        self.run_unnamed(Call::Open, sealed, room) == (room as i64, self.message.clone())
    }
}
