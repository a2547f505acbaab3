//! The calls on captures, each as a safe function, and the parts of a frame's body.

use crate::sizes::{CAPTURE_CODE_AT, CAPTURE_DATA_AT, CAPTURE_NONCE_AT};

extern "C" {
    fn tikhoplav_capture_frames(capture: *const u8, capture_len: usize) -> i64;

    fn tikhoplav_capture_frame(capture: *const u8, capture_len: usize, number: u64) -> i64;

    fn tikhoplav_capture_frame_size(capture: *const u8, capture_len: usize, number: u64) -> i64;
}

/// How many frames the capture has, or minus the number of a refusal.
pub fn frames(capture: &[u8]) -> i64 {
    // SAFETY: the pointer goes with its slice's length.
    unsafe { tikhoplav_capture_frames(capture.as_ptr(), capture.len()) }
}

/// Where the body of a frame begins in the capture, or minus the number of a refusal.
pub fn frame(capture: &[u8], number: u64) -> i64 {
    // SAFETY: as for `frames`.
    unsafe { tikhoplav_capture_frame(capture.as_ptr(), capture.len(), number) }
}

/// The length of a frame's body, or minus the number of a refusal.
pub fn frame_size(capture: &[u8], number: u64) -> i64 {
    // SAFETY: as for `frames`.
    unsafe { tikhoplav_capture_frame_size(capture.as_ptr(), capture.len(), number) }
}

/// The parts of a frame's body.
pub struct Parts<'a> {
    pub identifier: u32,
    pub code: u32,
    pub nonce: &'a [u8],
    pub data: &'a [u8],
}

/// Of a body that the archive has found.
pub fn parts(body: &[u8]) -> Parts<'_> {
    let number = |bytes: &[u8]| {
        bytes
            .iter()
            .fold(0, |number, &byte| number << 8 | u32::from(byte))
    };
    Parts {
        identifier: number(&body[..CAPTURE_CODE_AT]),
        code: number(&body[CAPTURE_CODE_AT..CAPTURE_NONCE_AT]),
        nonce: &body[CAPTURE_NONCE_AT..CAPTURE_DATA_AT],
        data: &body[CAPTURE_DATA_AT..],
    }
}
