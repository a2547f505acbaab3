//! Sizes in bytes and limits, by the names that `include/tikhoplav.h` has for them.

pub const KEY_SIZE: usize = 16;
pub const NONCE_SIZE: usize = 12;
pub const TAG_SIZE: usize = 8;
pub const AD_MAX: usize = 65535;
pub const MESSAGE_MAX: usize = 61440;
pub const SEALED_MAX: usize = MESSAGE_MAX + TAG_SIZE;
pub const IDENTIFIER_MAX: u32 = 0x1fff_ffff;
pub const FRAME_MESSAGE_MAX: usize = 55;
pub const LENGTH_CODE_MAX: u32 = 15;
pub const FRAME_MAX: usize = 64;
pub const STATE_SIZE: usize = 64;
pub const GRAIN128A_TAG_BITS_MAX: u32 = 32;
pub const GRAINV1_KEY_SIZE: usize = 10;
pub const GRAINV1_NONCE_SIZE: usize = 8;
pub const CAPTURE_MAX: usize = 65536;
pub const CAPTURE_DEPTH_MAX: usize = 6;
pub const CAPTURE_ENTRIES_MAX: usize = 255;
pub const CAPTURE_CODE_AT: usize = 4;
pub const CAPTURE_NONCE_AT: usize = 5;
pub const CAPTURE_DATA_AT: usize = 17;
pub const SIGNAL_WIDTH_MAX: u32 = 32;

/// The bytes that a tag of Grain-128a takes.
pub const fn grain128a_tag_size(tag_bits: u32) -> usize {
    tag_bits.div_ceil(8) as usize
}
