//! The calls on captures.

mod bodies;
mod bytes;
mod depths;
mod entries;
mod fields;
mod judge;
mod lengths;
mod order;
mod sample;
mod small;
mod stored;
mod trees;

use crate::Group;

pub const GROUPS: [(&str, Group); 26] = [
    ("the sample", sample::whole),
    ("the sample, cut and lengthened", sample::cut_and_lengthened),
    ("the sample with any one byte", sample::every_byte),
    ("the sample with other numbers", sample::numbers),
    ("stored captures of the selftest, on the model", stored::run),
    ("captures of at most two bytes", small::bytes),
    ("captures of at most four small items", small::items),
    ("codes and lengths of a frame's body", bodies::codes),
    ("identifiers of a frame's body", bodies::identifiers),
    ("a wrong body among others", bodies::among_others),
    ("entries up to 255 and more", entries::counts),
    ("entries up to 255 and more, in groups", entries::in_groups),
    ("counts that say too many entries", entries::too_many_said),
    ("lengths up to 65,536 bytes and more", lengths::around_limit),
    ("every frame of 65,536 bytes", lengths::every_frame),
    ("lengths over 65,536 bytes", lengths::over_limit),
    ("groups in groups, one a level", depths::chains),
    ("groups in groups, with frames", depths::with_frames),
    ("a break before a group too deep", order::before),
    ("a break behind a group too deep", order::behind),
    ("a break in a group too deep", order::inside),
    (
        "a break in the entries above a group too deep",
        order::in_entries,
    ),
    ("random captures", trees::sound),
    ("random captures, nested too deep", trees::too_deep),
    ("random captures, each field damaged", fields::every_field),
    ("random captures, bytes damaged", bytes::damaged),
];

/// How deep the deepest section of a capture may be.
const DEEPEST: usize = 6;
