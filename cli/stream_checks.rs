//! The selftest's stored payloads in pieces.

use crate::job::Job;
use crate::selftest::{check, Check};
use tikhoplav::hex;
use tikhoplav::pieces::Kind;
use tikhoplav::vectors::{Sealed, SEALED};

pub const HEADING: &str = "\
the same stored payloads in pieces of 7 bytes, both editions, through a sealing and a checking stream
  Each call is held to the clocks that it has to answer, too.
";

pub fn all() -> Vec<Check> {
    let mut checks: Vec<Check> = SEALED.iter().flat_map(sealed).collect();
    checks.extend(unnamed());
    checks
}

fn sealed(vector: &Sealed) -> Vec<Check> {
    let job = Job::counting(vector.ad_len, vector.message_len);
    let of_edition = |(edition, end)| of_edition(&job, edition, end);
    vector.by_edition().flat_map(of_edition).collect()
}

fn of_edition(job: &Job, edition: u32, end: &str) -> [Check; 3] {
    let payload = job.seal_in_pieces(edition).unwrap_or_default();
    let (ad_len, message_len) = (job.ad.len(), job.message.len());
    let name = format!("edition {edition}, AD of {ad_len}, message of {message_len}");
    [
        check(
            format!("{name}: sealed as stored, and as seal does"),
            hex::encode(&payload).ends_with(end) && job.seal(edition).as_ref() == Some(&payload),
        ),
        check(
            format!("{name}: checked"),
            job.checks_in_pieces(edition, &payload),
        ),
        check(
            format!("{name}: a wrong tag refused with 7, and the stream still open"),
            job.wrong_tag_leaves_open(edition, &payload),
        ),
    ]
}

fn unnamed() -> [Check; 2] {
    let job = Job::counting(8, 16);
    [
        check(
            "no edition named: a sealing stream begun as under edition 1".to_string(),
            job.begins_unnamed(Kind::Sealing),
        ),
        check(
            "no edition named: a checking stream begun as under edition 1".to_string(),
            job.begins_unnamed(Kind::Checking),
        ),
    ]
}
