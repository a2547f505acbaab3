//! The archive beside the independent implementation, on seeded random inputs of both editions, of
//! Grain-128a and of Grain v1, on captures and on signals.

mod ad_lengths;
mod captures;
mod damage;
mod editions;
mod equations;
mod flips;
mod frames;
mod grain128a;
mod grainv1;
mod judge;
mod keys;
mod order;
mod outputs;
mod parts;
mod random;
mod registers;
mod signals;
mod sizes;
mod streams;
mod trial;
mod two_tags;
mod vectors;

use judge::{Judge, Verdict};
use std::process::ExitCode;

const SEED: u64 = 128;

type Group = fn(&mut Judge) -> Verdict;

/// Those that make no trial of an edition.
const ONCE: [(&str, Group); 3] = [
    ("published vectors, on the model", vectors::published),
    (
        "stored answers of the selftest, on the model",
        vectors::stored,
    ),
    ("parts of sealed inputs", parts::run),
];

const OF_EACH_EDITION: [(&str, Group); 24] = [
    ("small sizes", sizes::small),
    ("sizes at the limits", sizes::limits),
    ("AD lengths, around every border", ad_lengths::shortest),
    ("AD lengths coded in a longer form", ad_lengths::longer),
    ("sealed inputs short and long", sizes::sealed_inputs),
    ("sizes of keys and nonces", sizes::keys_and_nonces),
    ("the blank key", keys::blank),
    ("keys of zeros", keys::zeros),
    ("keys with one byte that is not zero", keys::nearly_blank),
    ("random sizes", sizes::random),
    ("random sizes up to the limits", sizes::random_long),
    ("outputs short, exact and longer", outputs::run),
    ("damage to every bit", damage::every_bit),
    ("damage at random", damage::random),
    ("damage to lengths", damage::lengths),
    ("order of refusals", order::run),
    ("flips at every position", flips::every_position),
    ("flips at random", flips::random),
    ("flips in the largest payload", flips::largest),
    ("two tags of random lengths", two_tags::random),
    ("two tags of chosen lengths", two_tags::chosen),
    ("two pairs with one tag", two_tags::colliding),
    ("payloads of the other edition", editions::crossed),
    ("numbers that are no edition's", editions::unknown),
];

fn main() -> ExitCode {
    let seed = match std::env::args().nth(1).map(|text| text.parse()) {
        None => SEED,
        Some(Ok(seed)) => seed,
        Some(Err(error)) => {
            eprintln!("usage: harness [SEED]: {error}");
            return ExitCode::from(64);
        }
    };
    println!("seed {seed}");
    match run(seed) {
        Ok(total) => {
            println!("{total:>8}  comparisons, all equal");
            ExitCode::SUCCESS
        }
        Err(mismatch) => {
            eprintln!("{mismatch}");
            ExitCode::FAILURE
        }
    }
}

/// Counts the comparisons of all groups.
fn run(seed: u64) -> Result<usize, String> {
    let mut total = run_groups(&ONCE, 1, seed)? + run_groups(&frames::ONCE, 1, seed)?;
    for edition in [1, 2] {
        println!("edition {edition}");
        total += run_groups(&OF_EACH_EDITION, edition, seed)?;
        total += run_groups(&frames::OF_EACH_EDITION, edition, seed)?;
        total += run_groups(&streams::OF_EACH_EDITION, edition, seed)?;
    }
    println!("Grain-128a");
    total += run_groups(&grain128a::GROUPS, 1, seed)?;
    println!("Grain v1");
    total += run_groups(&grainv1::GROUPS, 1, seed)?;
    println!("captures");
    total += run_groups(&captures::GROUPS, 1, seed)?;
    println!("signals");
    total += run_groups(&signals::GROUPS, 1, seed)?;
    Ok(total)
}

/// Runs each group from the seed.
fn run_groups(groups: &[(&str, Group)], edition: u32, seed: u64) -> Result<usize, String> {
    let mut total = 0;
    for (name, group) in groups {
        let mut judge = Judge::new(edition, seed);
        group(&mut judge).map_err(|mismatch| format!("MISMATCH in {name}: {mismatch}"))?;
        println!("{:>8}  {name}", judge.comparisons);
        total += judge.comparisons;
    }
    Ok(total)
}
