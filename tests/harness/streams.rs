//! The calls on payloads that arrive in pieces.

mod begin;
mod call;
mod counts;
mod cuttings;
mod damage;
mod judge;
mod kinds;
mod limits;
mod order;
mod refusals;
mod scripts;
mod state_lengths;
mod stream;
mod tags;

use crate::Group;
use tikhoplav::pieces::Kind;

pub const OF_EACH_EDITION: [(&str, Group); 19] = [
    ("every cutting of a small payload", cuttings::every),
    ("cuttings at random", cuttings::random),
    ("pieces of one byte, and empty ones", cuttings::one_byte),
    ("largest job, in pieces", limits::largest),
    ("lengths at the limits, in pieces", limits::borders),
    ("scripts of random calls", scripts::short),
    ("scripts of random calls, longer", scripts::long),
    ("calls in every order", order::every),
    ("begins with every set of faults", begin::faults),
    ("begins of no edition", begin::unknown_editions),
    ("begins with AD lengths", begin::ad_lengths),
    ("begins on any bytes", begin::on_any_bytes),
    ("two faults in a call on a stream", refusals::pairs),
    ("many faults in a call on a stream", refusals::sets),
    ("damage to every byte of a state", damage::every_byte),
    ("counts, kind, phase and edition", counts::borders),
    ("states of every length", state_lengths::run),
    ("streams of the other kind", kinds::run),
    ("tags damaged and of any length", tags::run),
];

const KINDS: [Kind; 2] = [Kind::Sealing, Kind::Checking];

fn other(kind: Kind) -> Kind {
    match kind {
        Kind::Sealing => Kind::Checking,
        Kind::Checking => Kind::Sealing,
    }
}
