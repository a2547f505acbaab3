//! The call on signals as a safe function.

extern "C" {
    fn tikhoplav_signal(
        message: *const u8,
        message_len: usize,
        start: u32,
        width: u32,
        is_signed: u32,
        scale: f64,
        offset: f64,
        low: f64,
        high: f64,
        value_bits: *mut u64,
    ) -> i64;
}

/// Where a signal lies in a message, and what makes its value.
#[derive(Clone, Copy, Debug)]
pub struct Signal {
    pub start: u32,
    pub width: u32,
    /// Not signed where it is 0.
    pub is_signed: u32,
    pub scale: f64,
    pub offset: f64,
    pub low: f64,
    pub high: f64,
}

pub const BELOW: i64 = 1;
pub const WITHIN: i64 = 2;
pub const ABOVE: i64 = 3;
pub const NOT_FINITE: i64 = 4;

/// Answers how the value lies to the limits, or minus the number of a refusal. The value's bits go
/// to `value_bits`.
pub fn decode(message: &[u8], signal: &Signal, value_bits: &mut u64) -> i64 {
    // SAFETY: the pointer goes with its slice's length, and `value_bits` is borrowed alone.
    unsafe {
        tikhoplav_signal(
            message.as_ptr(),
            message.len(),
            signal.start,
            signal.width,
            signal.is_signed,
            signal.scale,
            signal.offset,
            signal.low,
            signal.high,
            value_bits,
        )
    }
}
