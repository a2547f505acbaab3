//! The selftest's checks of Grain-128a.

use crate::job::lent;
use crate::selftest::{check, Check};
use tikhoplav::archive::Call;
use tikhoplav::grain128a;
use tikhoplav::grain128a_vectors::{bytes, summands, Authentication, Column, MESSAGES, TABLE_3};
use tikhoplav::sizes::grain128a_tag_size;

pub const HEADING: &str = "\
table 3 of the paper on Grain-128a, through seal, open and crypt
  Columns 1 and 3 are under the blank key. They are not run, since the calls refuse the key. Four of
  the five messages are no whole bytes, which the calls take: their tags are checked as sums of three.
";

const NO_TAG_LENGTHS: [u32; 3] = [0, 33, u32::MAX];

pub fn all() -> Vec<Check> {
    let [blank, column_2, blank_with_tags, column_4] = &TABLE_3;
    let mut checks = Vec::from(crypt(column_2));
    checks.push(refused_crypt("column 4", column_4, 19));
    if let Some(published) = &column_4.authentication {
        checks.extend(sealed(column_4, published));
        checks.extend(tags(column_4, published));
        checks.extend(shorter_tags(column_4, published));
    }
    checks.extend(refused("column 2", column_2, 32, 19));
    for tag_bits in NO_TAG_LENGTHS {
        let name = format!("column 4, {tag_bits} tag bits");
        checks.extend(refused(&name, column_4, tag_bits, 20));
    }
    checks.push(refused_crypt("column 1", blank, 15));
    checks.extend(refused("column 3", blank_with_tags, 32, 15));
    checks
}

/// The answer, and the output of this room afterwards.
fn run(column: &Column, call: Call, tag_bits: u32, data: &[u8], room: usize) -> (i64, Vec<u8>) {
    let mut out = lent(room);
    let answer = grain128a::run(call, &column.key, &column.nonce, tag_bits, data, &mut out);
    (answer, out)
}

fn run_crypt(column: &Column, message: &[u8]) -> (i64, Vec<u8>) {
    let mut out = lent(message.len());
    let answer = grain128a::crypt(&column.key, &column.nonce, message, &mut out);
    (answer, out)
}

/// The sealed payload, where sealing fills an output of exactly its length.
fn seal(column: &Column, tag_bits: u32, message: &[u8]) -> Option<Vec<u8>> {
    let room = message.len() + grain128a_tag_size(tag_bits);
    let (answer, out) = run(column, Call::Seal, tag_bits, message, room);
    (answer == room as i64).then_some(out)
}

/// Zeros become the pre-output, and come back from it.
fn crypt(column: &Column) -> [Check; 2] {
    let preoutput = bytes(&column.preoutput);
    let zeros = vec![0; preoutput.len()];
    let count = zeros.len() as i64;
    [
        check(
            "column 2: the pre-output, through crypt".to_string(),
            run_crypt(column, &zeros) == (count, preoutput.clone()),
        ),
        check(
            "column 2: crypt gives the message back".to_string(),
            run_crypt(column, &preoutput) == (count, zeros),
        ),
    ]
}

/// Zeros become the keystream.
fn sealed(column: &Column, published: &Authentication) -> [Check; 3] {
    let keystream = bytes(&published.keystream);
    let zeros = vec![0; keystream.len()];
    let payload = seal(column, 32, &zeros).unwrap_or_default();
    let mut damaged = payload.clone();
    if let Some(last) = damaged.last_mut() {
        *last ^= 1;
    }
    let opened = |sealed: &[u8]| run(column, Call::Open, 32, sealed, zeros.len());
    [
        check(
            "column 4: the keystream, through seal".to_string(),
            payload.starts_with(&keystream),
        ),
        check(
            "column 4: opened again".to_string(),
            opened(&payload) == (zeros.len() as i64, zeros.clone()),
        ),
        check(
            "column 4: a wrong tag refused with 7, and nothing written".to_string(),
            opened(&damaged) == (-7, lent(zeros.len())),
        ),
    ]
}

fn tags(column: &Column, published: &Authentication) -> Vec<Check> {
    let messages = MESSAGES.iter().zip(published.tags).enumerate();
    let of_message = |(number, (message, tag)): (usize, (&&str, u32))| {
        check(
            format!("column 4: the tag of message {number}"),
            sum_of_tags(column, message) == Some(tag),
        )
    };
    messages.map(of_message).collect()
}

fn sum_of_tags(column: &Column, message: &str) -> Option<u32> {
    let mut sum = 0;
    for summand in summands(message) {
        let payload = seal(column, 32, &summand)?;
        sum ^= u32::from_be_bytes(*payload.last_chunk()?);
    }
    Some(sum)
}

/// Those of the empty message, which are the last bits of the published one.
fn shorter_tags(column: &Column, published: &Authentication) -> [Check; 3] {
    let cut = |tag_bits: u32| {
        let tag = (published.tags[0] << (32 - tag_bits)).to_be_bytes();
        tag[..grain128a_tag_size(tag_bits)].to_vec()
    };
    let open = |sealed: &[u8]| run(column, Call::Open, 12, sealed, 0).0;
    let mut bit_past = cut(12);
    bit_past[1] |= 1;
    [
        check(
            "column 4: the tags of message 0 of 1 to 31 bits".to_string(),
            (1..32).all(|tag_bits| seal(column, tag_bits, &[]) == Some(cut(tag_bits))),
        ),
        check(
            "column 4: the tag of message 0 of 12 bits opened".to_string(),
            open(&cut(12)) == 0,
        ),
        check(
            "column 4: a set bit past the 12 refused with 7".to_string(),
            open(&bit_past) == -7,
        ),
    ]
}

/// Seal and open refuse with this number, and write nothing. There is room for what they would.
fn refused(name: &str, column: &Column, tag_bits: u32, number: i64) -> [Check; 2] {
    let refuses = |call| run(column, call, tag_bits, &[0; 8], 12) == (-number, lent(12));
    [
        check(
            format!("{name}: seal refuses with {number}, and nothing is written"),
            refuses(Call::Seal),
        ),
        check(
            format!("{name}: open refuses with {number}, and nothing is written"),
            refuses(Call::Open),
        ),
    ]
}

fn refused_crypt(name: &str, column: &Column, number: i64) -> Check {
    check(
        format!("{name}: crypt refuses with {number}, and nothing is written"),
        run_crypt(column, &[0; 8]) == (-number, lent(8)),
    )
}
