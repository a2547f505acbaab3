//! The call of Grain v1 as a safe function.

extern "C" {
    fn tikhoplav_grainv1_crypt(
        key: *const u8,
        key_len: usize,
        nonce: *const u8,
        nonce_len: usize,
        message: *const u8,
        message_len: usize,
        out: *mut u8,
        out_len: usize,
    ) -> i64;
}

/// Adds the keystream to the message, to the front of `out`. Answers the count of bytes written, or
/// minus the number of a refusal.
pub fn crypt(key: &[u8], nonce: &[u8], message: &[u8], out: &mut [u8]) -> i64 {
    // SAFETY: each pointer goes with its own slice's length, and `out` is borrowed alone, so it
    // overlaps no input.
    unsafe {
        tikhoplav_grainv1_crypt(
            key.as_ptr(),
            key.len(),
            nonce.as_ptr(),
            nonce.len(),
            message.as_ptr(),
            message.len(),
            out.as_mut_ptr(),
            out.len(),
        )
    }
}
