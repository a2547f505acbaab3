//! The call on signals.

mod arithmetic;
mod doubles;
mod judge;
mod limits;
mod order;
mod overflow;
mod places;
mod raws;
mod stored;
mod trial;
mod whole_numbers;

use crate::Group;

pub const GROUPS: [(&str, Group); 18] = [
    ("stored signals of the selftest, on the model", stored::run),
    ("every place in at most nine bytes", places::every),
    ("starts and widths up to 2^32", places::far),
    ("signals of a message of over 2^32 bits", places::in_long),
    ("ends of raw, at every width and shift", raws::ends),
    ("random raws, at every width and shift", raws::random),
    ("any number for a sign", raws::signs),
    ("doubles at the edges, four at a time", doubles::edges),
    ("random doubles", doubles::random),
    ("products, held to whole numbers", whole_numbers::products),
    ("sums, held to whole numbers", whole_numbers::sums),
    (
        "offsets that nearly take the product off",
        arithmetic::cancelled,
    ),
    (
        "products and sums below the normal doubles",
        arithmetic::subnormal,
    ),
    ("products that overflow by an ulp", overflow::products),
    ("sums that overflow by half an ulp", overflow::sums),
    ("limits at the value and an ulp beside it", limits::around),
    ("limits of zero, with and without a sign", limits::zeros),
    ("order of refusals", order::run),
];
