//! The calls on sealed CAN FD frames.

mod altered_length;
mod codes;
mod damage;
mod editions;
mod flips;
mod identifiers;
mod judge;
mod keys;
mod making;
mod order;
mod reading;
mod stored;
mod stream;
mod trial;

use crate::Group;

/// Those that make no trial of an edition.
pub const ONCE: [(&str, Group); 3] = [
    ("stored frames of the selftest, on the model", stored::run),
    ("lengths of length codes", codes::lengths),
    ("length codes of lengths", codes::codes),
];

pub const OF_EACH_EDITION: [(&str, Group); 22] = [
    ("frames made, in every room", making::rooms),
    ("frames of messages too long", making::too_long),
    ("frames made and read at random", making::round_trips),
    ("frames read, in every room", reading::rooms),
    ("frames read under every code", reading::every_code),
    ("codes and lengths of more bits", reading::cut_numbers),
    ("frames under the blank key", keys::blank),
    ("frames under keys with one bit", keys::nearly_blank),
    ("identifiers at the borders", identifiers::borders),
    ("frames of other identifiers", identifiers::others),
    ("damage to filler", damage::filler),
    ("damage to M", damage::message_length),
    ("damage to a frame's sealed part", damage::sealed_part),
    ("frames under other keys and nonces", damage::key_and_nonce),
    ("M altered where filler fits", altered_length::shorter),
    ("frames genuine under either M", altered_length::either),
    ("flips in frames, at every position", flips::every_position),
    ("flips in frames, at random", flips::random),
    ("two faults in a frame", order::pairs),
    ("many faults in a frame", order::sets),
    ("frames of the other edition", editions::crossed),
    ("frames of no edition", editions::unknown),
];

/// The bytes that each length code means.
pub const LENGTHS: [usize; 16] = [0, 1, 2, 3, 4, 5, 6, 7, 8, 12, 16, 20, 24, 32, 48, 64];

/// The longest message of a frame.
const LONGEST: usize = 55;

/// The length code of a message's field.
fn code_for(message_len: usize) -> u32 {
    match message_len {
        0..=3 => 9,
        4..=7 => 10,
        8..=11 => 11,
        12..=15 => 12,
        16..=23 => 13,
        24..=39 => 14,
        40..=LONGEST => 15,
        _ => unreachable!("no frame holds {message_len} bytes"),
    }
}
