//! Stored captures: the sample of document 02, and one with groups.

/// A frame of a stored capture.
pub struct Stored {
    /// Where its body begins, and its length.
    pub place: usize,
    pub size: usize,
    /// The message in hex that reading gives under the key 00 01 02 .. and edition 1, or the number
    /// of its refusal.
    pub read: Result<&'static str, u8>,
}

pub struct Capture {
    pub name: &'static str,
    pub hex: &'static str,
    pub frames: &'static [Stored],
}

const fn stored(place: usize, size: usize, read: Result<&'static str, u8>) -> Stored {
    Stored { place, size, read }
}

pub const SAMPLE: Capture = Capture {
    name: "the sample",
    hex: "0001 00000011 0000000a 00000123 00 000000000000000000000000",
    frames: &[stored(10, 17, Err(11))],
};

/// A sealed frame; a group of a sealed frame and of a group, whose frame has a bit of its tag
/// changed; an empty group; a frame that is not sealed.
pub const NESTED: Capture = Capture {
    name: "a capture with groups",
    hex: include_str!("capture.hex"),
    frames: &[
        stored(34, 29, Ok("0960")),
        stored(81, 33, Ok("01020304")),
        stored(124, 29, Err(7)),
        stored(155, 19, Err(11)),
    ],
};
