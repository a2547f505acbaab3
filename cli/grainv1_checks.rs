//! The selftest's checks of Grain v1.

use crate::job::lent;
use crate::selftest::{check, Check};
use tikhoplav::grainv1;
use tikhoplav::grainv1_vectors::{Vector, PUBLISHED};
use tikhoplav::hex;
use tikhoplav::sizes::MESSAGE_MAX;

pub const HEADING: &str = "\
the designers' vectors of Grain v1, through crypt
  They have the bits of every byte from the lowest up. The call has them from the top down, so those
  of key, nonce and keystream are turned round.
";

pub fn all() -> Vec<Check> {
    let mut checks: Vec<Check> = PUBLISHED.iter().flat_map(published).collect();
    checks.extend(refusals(&PUBLISHED[1].turned()));
    checks
}

/// The answer, and the output of this room afterwards.
fn run(key: &[u8], nonce: &[u8], message: &[u8], room: usize) -> (i64, Vec<u8>) {
    let mut out = lent(room);
    let answer = grainv1::crypt(key, nonce, message, &mut out);
    (answer, out)
}

/// Zeros become the keystream, and come back from it.
fn published(vector: &Vector) -> [Check; 2] {
    let name = format!("key {}", hex::encode(&vector.key));
    let Vector {
        key,
        nonce,
        keystream,
    } = vector.turned();
    let zeros = vec![0; keystream.len()];
    let crypt = |message: &[u8]| run(&key, &nonce, message, message.len());
    let count = zeros.len() as i64;
    [
        check(
            format!("{name}: the keystream"),
            crypt(&zeros) == (count, keystream.to_vec()),
        ),
        check(
            format!("{name}: crypt gives the message back"),
            crypt(&keystream) == (count, zeros),
        ),
    ]
}

/// Each fault with all those that are looked for after it.
fn refusals(vector: &Vector) -> [Check; 4] {
    let (key, nonce) = (&vector.key, &vector.nonce);
    let long = vec![0; MESSAGE_MAX + 1];
    let refused = |number: i64, key: &[u8], nonce: &[u8], message: &[u8]| {
        check(
            format!("crypt refuses with {number}, and nothing is written"),
            run(key, nonce, message, 9) == (-number, lent(9)),
        )
    };
    [
        refused(1, &key[1..], &nonce[1..], &long),
        refused(2, key, &nonce[1..], &long),
        refused(4, key, nonce, &long),
        refused(6, key, nonce, &[0; 10]),
    ]
}
