//! The call of Grain v1.

mod crypt;
mod judge;
mod keys;
mod order;
mod outputs;
mod sizes;
mod trial;
mod vectors;

use crate::Group;

pub const GROUPS: [(&str, Group); 20] = [
    ("published vectors, on the model", vectors::on_model),
    ("published vectors, by the call", vectors::by_the_call),
    ("a vector that is not turned", vectors::not_turned),
    ("every small size", sizes::small),
    ("sizes at the limit", sizes::limits),
    ("sizes of keys", sizes::keys),
    ("sizes of nonces", sizes::nonces),
    ("random sizes", sizes::random),
    ("random sizes up to the limit", sizes::random_long),
    ("outputs of every room", outputs::every_room),
    ("outputs of long messages", outputs::long),
    ("the blank key", keys::blank),
    ("keys of zeros", keys::zeros),
    ("keys and nonces with one byte", keys::one_byte),
    ("keys and nonces with a bit changed", keys::every_bit),
    ("two faults", order::pairs),
    ("many faults", order::sets),
    ("crypt twice", crypt::twice),
    ("crypt of messages that share bits", crypt::sums),
    ("crypt of the fronts of a message", crypt::fronts),
];
