//! Each engine by itself, and start-up: proved as the archive is, and no part of it.

use tikhoplav::sizes::{KEY_SIZE, NONCE_SIZE};

#[link(name = "probes", kind = "static")]
extern "C" {
    fn probe_plain_engine(lfsr0: u64, lfsr1: u64, nfsr0: u64, nfsr1: u64, n: usize) -> u64;
    fn probe_strokes(lfsr0: u64, lfsr1: u64, nfsr0: u64, nfsr1: u64, n: usize) -> u64;
    fn probe_start_up(key: *const [u8; KEY_SIZE], nonce: *const [u8; NONCE_SIZE]) -> u64;
}

/// Two words for each register.
pub type Words = [u64; 4];

/// The last 64 pre-outputs of plain clocks.
pub fn plain_engine([lfsr0, lfsr1, nfsr0, nfsr1]: Words, clocks: usize) -> u64 {
    // SAFETY: numbers alone.
    unsafe { probe_plain_engine(lfsr0, lfsr1, nfsr0, nfsr1, clocks) }
}

pub fn strokes([lfsr0, lfsr1, nfsr0, nfsr1]: Words, clocks: usize) -> u64 {
    // SAFETY: numbers alone.
    unsafe { probe_strokes(lfsr0, lfsr1, nfsr0, nfsr1, clocks) }
}

/// The accumulator after start-up.
pub fn start_up(key: &[u8; KEY_SIZE], nonce: &[u8; NONCE_SIZE]) -> u64 {
    // SAFETY: both are read alone, and have their sizes.
    unsafe { probe_start_up(key, nonce) }
}
