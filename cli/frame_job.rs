//! Inputs of the selftest's frames, and the calls on them.

use crate::job::lent;
use tikhoplav::frames;
use tikhoplav::sizes::{FRAME_MAX, FRAME_MESSAGE_MAX, KEY_SIZE, NONCE_SIZE};
use tikhoplav::vectors::counting;

pub struct FrameJob {
    key: Vec<u8>,
    nonce: Vec<u8>,
    identifier: u32,
    message: Vec<u8>,
}

/// An output with these bytes at its front, and the rest as it was lent.
fn filled(front: &[u8], room: usize) -> Vec<u8> {
    let mut out = lent(room);
    out[..front.len()].copy_from_slice(front);
    out
}

impl FrameJob {
    /// Key, nonce and message count 00 01 02 and so on.
    pub fn counting(identifier: u32, message_len: usize) -> FrameJob {
        FrameJob {
            key: counting(KEY_SIZE),
            nonce: counting(NONCE_SIZE),
            identifier,
            message: counting(message_len),
        }
    }

    /// Making gives this data field. There is room for the longest.
    pub fn makes(&self, edition: Option<u32>, field: &[u8]) -> bool {
        let mut out = lent(FRAME_MAX);
        let answer = frames::make(
            edition,
            &self.key,
            &self.nonce,
            self.identifier,
            &self.message,
            &mut out,
        );
        (answer, out) == (field.len() as i64, filled(field, FRAME_MAX))
    }

    /// The answer of reading, and the output afterwards. There is room for the longest message.
    fn read(&self, edition: Option<u32>, field: &[u8]) -> (i64, Vec<u8>) {
        let mut out = lent(FRAME_MESSAGE_MAX);
        let answer = frames::read(
            edition,
            &self.key,
            &self.nonce,
            self.identifier,
            frames::length_code(field.len()) as u32,
            field,
            &mut out,
        );
        (answer, out)
    }

    /// The message comes out.
    pub fn reads(&self, edition: Option<u32>, field: &[u8]) -> bool {
        let out = filled(&self.message, FRAME_MESSAGE_MAX);
        self.read(edition, field) == (self.message.len() as i64, out)
    }

    /// Reading is refused with this number, and nothing is written.
    pub fn read_refused(&self, edition: u32, field: &[u8], number: i64) -> bool {
        self.read(Some(edition), field) == (-number, lent(FRAME_MESSAGE_MAX))
    }
}
