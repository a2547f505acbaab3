//! The calls of the archive, each as a safe function.

#[link(name = "tikhoplav", kind = "static")]
extern "C" {
    fn tikhoplav_seal(
        key: *const u8,
        key_len: usize,
        nonce: *const u8,
        nonce_len: usize,
        ad: *const u8,
        ad_len: usize,
        message: *const u8,
        message_len: usize,
        out: *mut u8,
        out_len: usize,
    ) -> i64;

    fn tikhoplav_open(
        key: *const u8,
        key_len: usize,
        nonce: *const u8,
        nonce_len: usize,
        ad: *const u8,
        ad_len: usize,
        sealed: *const u8,
        sealed_len: usize,
        out: *mut u8,
        out_len: usize,
    ) -> i64;

    fn tikhoplav_seal_edition(
        edition: u32,
        key: *const u8,
        key_len: usize,
        nonce: *const u8,
        nonce_len: usize,
        ad: *const u8,
        ad_len: usize,
        message: *const u8,
        message_len: usize,
        out: *mut u8,
        out_len: usize,
    ) -> i64;

    fn tikhoplav_open_edition(
        edition: u32,
        key: *const u8,
        key_len: usize,
        nonce: *const u8,
        nonce_len: usize,
        ad: *const u8,
        ad_len: usize,
        sealed: *const u8,
        sealed_len: usize,
        out: *mut u8,
        out_len: usize,
    ) -> i64;

    fn tikhoplav_ciphertext_size(sealed: *const u8, sealed_len: usize) -> i64;
}

#[derive(Clone, Copy, Debug, PartialEq, Eq)]
pub enum Call {
    Seal,
    Open,
}

impl Call {
    /// Runs the call that names the edition; `data` is the message or the sealed payload. What it
    /// gives goes to the front of `out`. Answers the count of bytes written, or minus the number of
    /// a refusal.
    pub fn run(
        self,
        edition: u32,
        key: &[u8],
        nonce: &[u8],
        ad: &[u8],
        data: &[u8],
        out: &mut [u8],
    ) -> i64 {
        let call = match self {
            Call::Seal => tikhoplav_seal_edition,
            Call::Open => tikhoplav_open_edition,
        };
        // SAFETY: each pointer goes with its own slice's length, and `out` is borrowed alone, so it
        // overlaps no input.
        unsafe {
            call(
                edition,
                key.as_ptr(),
                key.len(),
                nonce.as_ptr(),
                nonce.len(),
                ad.as_ptr(),
                ad.len(),
                data.as_ptr(),
                data.len(),
                out.as_mut_ptr(),
                out.len(),
            )
        }
    }

    /// Runs the call that names no edition.
    pub fn run_unnamed(
        self,
        key: &[u8],
        nonce: &[u8],
        ad: &[u8],
        data: &[u8],
        out: &mut [u8],
    ) -> i64 {
        let call = match self {
            Call::Seal => tikhoplav_seal,
            Call::Open => tikhoplav_open,
        };
        // SAFETY: as for `run`.
        unsafe {
            call(
                key.as_ptr(),
                key.len(),
                nonce.as_ptr(),
                nonce.len(),
                ad.as_ptr(),
                ad.len(),
                data.as_ptr(),
                data.len(),
                out.as_mut_ptr(),
                out.len(),
            )
        }
    }
}

/// The ciphertext part and the tag part of a sealed input.
pub fn parts(sealed: &[u8]) -> (&[u8], &[u8]) {
    // SAFETY: the pointer goes with its slice's length.
    let size = unsafe { tikhoplav_ciphertext_size(sealed.as_ptr(), sealed.len()) };
    sealed.split_at(usize::try_from(size).expect("a length is 0 or more"))
}
