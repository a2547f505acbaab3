//! The calls of Grain-128a, each as a safe function.

use crate::archive::Call;

extern "C" {
    fn tikhoplav_grain128a_seal(
        key: *const u8,
        key_len: usize,
        nonce: *const u8,
        nonce_len: usize,
        tag_bits: u32,
        message: *const u8,
        message_len: usize,
        out: *mut u8,
        out_len: usize,
    ) -> i64;

    fn tikhoplav_grain128a_open(
        key: *const u8,
        key_len: usize,
        nonce: *const u8,
        nonce_len: usize,
        tag_bits: u32,
        sealed: *const u8,
        sealed_len: usize,
        out: *mut u8,
        out_len: usize,
    ) -> i64;

    fn tikhoplav_grain128a_crypt(
        key: *const u8,
        key_len: usize,
        nonce: *const u8,
        nonce_len: usize,
        message: *const u8,
        message_len: usize,
        out: *mut u8,
        out_len: usize,
    ) -> i64;
}

/// Seals the message or opens the sealed payload, to the front of `out`. Answers the count of bytes
/// written, or minus the number of a refusal.
pub fn run(
    call: Call,
    key: &[u8],
    nonce: &[u8],
    tag_bits: u32,
    data: &[u8],
    out: &mut [u8],
) -> i64 {
    let call = match call {
        Call::Seal => tikhoplav_grain128a_seal,
        Call::Open => tikhoplav_grain128a_open,
    };
    // SAFETY: each pointer goes with its own slice's length, and `out` is borrowed alone, so it
    // overlaps no input.
    unsafe {
        call(
            key.as_ptr(),
            key.len(),
            nonce.as_ptr(),
            nonce.len(),
            tag_bits,
            data.as_ptr(),
            data.len(),
            out.as_mut_ptr(),
            out.len(),
        )
    }
}

/// Adds the keystream of the mode without authentication to the message. Answers as `run` does.
pub fn crypt(key: &[u8], nonce: &[u8], message: &[u8], out: &mut [u8]) -> i64 {
    // SAFETY: as for `run`.
    unsafe {
        tikhoplav_grain128a_crypt(
            key.as_ptr(),
            key.len(),
            nonce.as_ptr(),
            nonce.len(),
            message.as_ptr(),
            message.len(),
            out.as_mut_ptr(),
            out.len(),
        )
    }
}
