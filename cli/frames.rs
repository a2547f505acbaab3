//! The calls on CAN FD frames, each as a safe function.

extern "C" {
    fn tikhoplav_frame_make(
        key: *const u8,
        key_len: usize,
        nonce: *const u8,
        nonce_len: usize,
        identifier: u32,
        message: *const u8,
        message_len: usize,
        out: *mut u8,
        out_len: usize,
    ) -> i64;

    fn tikhoplav_frame_read(
        key: *const u8,
        key_len: usize,
        nonce: *const u8,
        nonce_len: usize,
        identifier: u32,
        code: u32,
        data: *const u8,
        data_len: usize,
        out: *mut u8,
        out_len: usize,
    ) -> i64;

    fn tikhoplav_frame_make_edition(
        edition: u32,
        key: *const u8,
        key_len: usize,
        nonce: *const u8,
        nonce_len: usize,
        identifier: u32,
        message: *const u8,
        message_len: usize,
        out: *mut u8,
        out_len: usize,
    ) -> i64;

    fn tikhoplav_frame_read_edition(
        edition: u32,
        key: *const u8,
        key_len: usize,
        nonce: *const u8,
        nonce_len: usize,
        identifier: u32,
        code: u32,
        data: *const u8,
        data_len: usize,
        out: *mut u8,
        out_len: usize,
    ) -> i64;

    fn tikhoplav_coded_length(code: u32) -> i64;

    fn tikhoplav_length_code(length: usize) -> i64;
}

/// Seals the message into a data field at the front of `out`, by the call that names the edition,
/// or by the one that names none. Answers the count of bytes written, or minus the number of a
/// refusal.
pub fn make(
    edition: Option<u32>,
    key: &[u8],
    nonce: &[u8],
    identifier: u32,
    message: &[u8],
    out: &mut [u8],
) -> i64 {
    let (key, key_len) = (key.as_ptr(), key.len());
    let (nonce, nonce_len) = (nonce.as_ptr(), nonce.len());
    let (message, message_len) = (message.as_ptr(), message.len());
    let (out, out_len) = (out.as_mut_ptr(), out.len());
    // SAFETY: each pointer goes with its own slice's length, and `out` is borrowed alone, so it
    // overlaps no input.
    unsafe {
        match edition {
            #[rustfmt::skip]
            Some(edition) => tikhoplav_frame_make_edition(
                edition, key, key_len, nonce, nonce_len, identifier,
                message, message_len, out, out_len,
            ),
            #[rustfmt::skip]
            None => tikhoplav_frame_make(
                key, key_len, nonce, nonce_len, identifier,
                message, message_len, out, out_len,
            ),
        }
    }
}

/// Opens the data field to the front of `out`, by the call that names the edition, or by the one
/// that names none. Answers the count of bytes written, or minus the number of a refusal.
pub fn read(
    edition: Option<u32>,
    key: &[u8],
    nonce: &[u8],
    identifier: u32,
    code: u32,
    data: &[u8],
    out: &mut [u8],
) -> i64 {
    let (key, key_len) = (key.as_ptr(), key.len());
    let (nonce, nonce_len) = (nonce.as_ptr(), nonce.len());
    let (data, data_len) = (data.as_ptr(), data.len());
    let (out, out_len) = (out.as_mut_ptr(), out.len());
    // SAFETY: as for `make`.
    unsafe {
        match edition {
            #[rustfmt::skip]
            Some(edition) => tikhoplav_frame_read_edition(
                edition, key, key_len, nonce, nonce_len, identifier, code,
                data, data_len, out, out_len,
            ),
            #[rustfmt::skip]
            None => tikhoplav_frame_read(
                key, key_len, nonce, nonce_len, identifier, code,
                data, data_len, out, out_len,
            ),
        }
    }
}

/// The bytes that a length code means, or minus the number of a refusal.
pub fn coded_length(code: u32) -> i64 {
    // SAFETY: the call takes no pointer.
    unsafe { tikhoplav_coded_length(code) }
}

/// The smallest length code that holds so many bytes, or minus the number of a refusal.
pub fn length_code(length: usize) -> i64 {
    // SAFETY: the call takes no pointer.
    unsafe { tikhoplav_length_code(length) }
}
