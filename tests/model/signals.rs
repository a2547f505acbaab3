//! Signals: the value and how it lies to its limits, or the number of the refusal.

const WIDEST: u64 = 32;

/// What makes a value of a raw number, and the limits of the value.
#[derive(Clone, Copy)]
pub struct Numbers {
    pub scale: f64,
    pub offset: f64,
    pub low: f64,
    pub high: f64,
}

/// The answer, 1 to 4, and the value.
pub fn decode(
    message: &[u8],
    start: u32,
    width: u32,
    signed: bool,
    numbers: &Numbers,
) -> Result<(i64, f64), u8> {
    let raw = raw(message, start, width, signed).ok_or(21)?;
    let Numbers {
        scale,
        offset,
        low,
        high,
    } = *numbers;
    if [scale, offset, low, high].iter().any(|n| !n.is_finite()) || low > high {
        return Err(22);
    }
    let product = raw * scale;
    let value = product + offset;
    let answer = match value {
        _ if value.is_infinite() => 4,
        _ if value < low => 1,
        _ if value > high => 3,
        _ => 2,
    };
    Ok((answer, value))
}

/// Each bit adds its weight, the last 1 and each other twice that of the next; with a sign the
/// weight of the first is taken off. None where there is no such signal in the message.
fn raw(message: &[u8], start: u32, width: u32, signed: bool) -> Option<f64> {
    let (start, width) = (u64::from(start), u64::from(width));
    if width == 0 || width > WIDEST {
        return None;
    }
    let mut raw = 0.0;
    let mut weight = 1.0;
    for place in (start..start + width).rev() {
        if is_set(message, place)? {
            raw += if signed && place == start {
                -weight
            } else {
                weight
            };
        }
        weight *= 2.0;
    }
    Some(raw)
}

/// Bit 0 is the top bit of the first byte. None behind the message.
fn is_set(message: &[u8], place: u64) -> Option<bool> {
    let byte = message.get(usize::try_from(place / 8).ok()?)?;
    Some(byte / (128 >> (place % 8)) % 2 == 1)
}
