//! The calls of Grain-128a.

mod crypt;
mod damage;
mod flips;
mod judge;
mod keys;
mod modes;
mod order;
mod outputs;
mod registers;
mod sizes;
mod tag_lengths;
mod trial;
mod vectors;

use crate::Group;

pub const GROUPS: [(&str, Group); 29] = [
    ("table 3, on the model", vectors::on_model),
    ("table 3's keystreams, by the calls", vectors::keystreams),
    ("table 3's tags, by the calls", vectors::tags),
    ("every small size", sizes::small),
    ("sizes at the limits", sizes::limits),
    ("sealed inputs short and long", sizes::sealed_inputs),
    ("sizes of keys and nonces", sizes::keys_and_nonces),
    ("random sizes", sizes::random),
    ("random sizes up to the limit", sizes::random_long),
    ("tags of every length", tag_lengths::every),
    ("tags of no length", tag_lengths::none),
    ("bits past the tag's length", tag_lengths::bits_past),
    ("payloads under other tag lengths", tag_lengths::others),
    ("the blank key", keys::blank),
    ("keys of zeros", keys::zeros),
    ("keys with one byte that is not zero", keys::nearly_blank),
    ("every first byte of a nonce", modes::first_bytes),
    ("nonces of the other mode", modes::others),
    ("outputs short, exact and longer", outputs::run),
    (
        "keys and nonces with a bit changed",
        damage::keys_and_nonces,
    ),
    ("damage to lengths", damage::lengths),
    ("flips of every bit", flips::every_bit),
    ("flips at random", flips::random),
    ("flips that are solved for", flips::solved),
    ("flips in the largest payload", flips::largest),
    ("two faults", order::pairs),
    ("many faults", order::sets),
    ("crypt twice", crypt::twice),
    ("crypt of messages that share bits", crypt::sums),
];

const CALLS: [trial::Call; 3] = [trial::Call::Seal, trial::Call::Open, trial::Call::Crypt];

/// All that a tag can have, and the borders of its bytes.
const TAG_BITS: std::ops::RangeInclusive<u32> = 1..=32;
const BORDERS: [u32; 10] = [1, 2, 7, 8, 9, 16, 17, 24, 25, 32];
