//! The calls on payloads that arrive in pieces, each as a safe function.

extern "C" {
    fn tikhoplav_sealing_begin(
        state: *mut u8,
        state_len: usize,
        key: *const u8,
        key_len: usize,
        nonce: *const u8,
        nonce_len: usize,
        ad_len: usize,
    ) -> i64;

    fn tikhoplav_checking_begin(
        state: *mut u8,
        state_len: usize,
        key: *const u8,
        key_len: usize,
        nonce: *const u8,
        nonce_len: usize,
        ad_len: usize,
    ) -> i64;

    fn tikhoplav_sealing_begin_edition(
        edition: u32,
        state: *mut u8,
        state_len: usize,
        key: *const u8,
        key_len: usize,
        nonce: *const u8,
        nonce_len: usize,
        ad_len: usize,
    ) -> i64;

    fn tikhoplav_checking_begin_edition(
        edition: u32,
        state: *mut u8,
        state_len: usize,
        key: *const u8,
        key_len: usize,
        nonce: *const u8,
        nonce_len: usize,
        ad_len: usize,
    ) -> i64;

    fn tikhoplav_sealing_ad(
        state: *mut u8,
        state_len: usize,
        piece: *const u8,
        piece_len: usize,
    ) -> i64;

    fn tikhoplav_checking_ad(
        state: *mut u8,
        state_len: usize,
        piece: *const u8,
        piece_len: usize,
    ) -> i64;

    fn tikhoplav_sealing_message(
        state: *mut u8,
        state_len: usize,
        piece: *const u8,
        piece_len: usize,
        out: *mut u8,
        out_len: usize,
    ) -> i64;

    fn tikhoplav_checking_ciphertext(
        state: *mut u8,
        state_len: usize,
        piece: *const u8,
        piece_len: usize,
    ) -> i64;

    fn tikhoplav_sealing_finish(
        state: *mut u8,
        state_len: usize,
        out: *mut u8,
        out_len: usize,
    ) -> i64;

    fn tikhoplav_checking_finish(
        state: *mut u8,
        state_len: usize,
        tag: *const u8,
        tag_len: usize,
    ) -> i64;
}

/// What a stream is for. Each call answers the clocks so far, or minus the number of a refusal.
#[derive(Clone, Copy, Debug, PartialEq, Eq)]
pub enum Kind {
    Sealing,
    Checking,
}

impl Kind {
    /// Begins a stream in the edition that is named.
    pub fn begin(
        self,
        edition: u32,
        state: &mut [u8],
        key: &[u8],
        nonce: &[u8],
        ad_len: usize,
    ) -> i64 {
        let call = match self {
            Kind::Sealing => tikhoplav_sealing_begin_edition,
            Kind::Checking => tikhoplav_checking_begin_edition,
        };
        // SAFETY: each pointer goes with its own slice's length, and `state` is borrowed alone, so
        // it overlaps no input.
        unsafe {
            call(
                edition,
                state.as_mut_ptr(),
                state.len(),
                key.as_ptr(),
                key.len(),
                nonce.as_ptr(),
                nonce.len(),
                ad_len,
            )
        }
    }

    /// Begins a stream by the call that names no edition.
    pub fn begin_unnamed(self, state: &mut [u8], key: &[u8], nonce: &[u8], ad_len: usize) -> i64 {
        let call = match self {
            Kind::Sealing => tikhoplav_sealing_begin,
            Kind::Checking => tikhoplav_checking_begin,
        };
        // SAFETY: as for `begin`.
        unsafe {
            call(
                state.as_mut_ptr(),
                state.len(),
                key.as_ptr(),
                key.len(),
                nonce.as_ptr(),
                nonce.len(),
                ad_len,
            )
        }
    }

    /// Takes a piece of the AD.
    pub fn ad(self, state: &mut [u8], piece: &[u8]) -> i64 {
        let call = match self {
            Kind::Sealing => tikhoplav_sealing_ad,
            Kind::Checking => tikhoplav_checking_ad,
        };
        // SAFETY: as for `begin`.
        unsafe { call(state.as_mut_ptr(), state.len(), piece.as_ptr(), piece.len()) }
    }
}

/// Takes a piece of the message; its ciphertext goes to the front of `out`.
pub fn message(state: &mut [u8], piece: &[u8], out: &mut [u8]) -> i64 {
    // SAFETY: each pointer goes with its own slice's length, and `state` and `out` are borrowed
    // alone, so neither overlaps the other or the piece.
    unsafe {
        tikhoplav_sealing_message(
            state.as_mut_ptr(),
            state.len(),
            piece.as_ptr(),
            piece.len(),
            out.as_mut_ptr(),
            out.len(),
        )
    }
}

/// Takes a piece of the ciphertext.
pub fn ciphertext(state: &mut [u8], piece: &[u8]) -> i64 {
    // SAFETY: as for `Kind::begin`.
    unsafe {
        tikhoplav_checking_ciphertext(state.as_mut_ptr(), state.len(), piece.as_ptr(), piece.len())
    }
}

/// Ends a sealing stream; the tag goes to the front of `out`.
pub fn sealing_finish(state: &mut [u8], out: &mut [u8]) -> i64 {
    // SAFETY: as for `message`.
    unsafe {
        tikhoplav_sealing_finish(state.as_mut_ptr(), state.len(), out.as_mut_ptr(), out.len())
    }
}

/// Ends a checking stream, if the tag is right.
pub fn checking_finish(state: &mut [u8], tag: &[u8]) -> i64 {
    // SAFETY: as for `Kind::begin`.
    unsafe { tikhoplav_checking_finish(state.as_mut_ptr(), state.len(), tag.as_ptr(), tag.len()) }
}
