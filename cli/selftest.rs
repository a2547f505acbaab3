//! `tikhoplav selftest`: the archive against published vectors and stored answers.

use crate::capture_checks;
use crate::failure::Failure;
use crate::frame_checks;
use crate::grain128a_checks;
use crate::grainv1_checks;
use crate::job::Job;
use crate::signal_checks;
use crate::stream_checks;
use crate::streams;
use tikhoplav::hex;
use tikhoplav::sizes::KEY_SIZE;
use tikhoplav::vectors::{Published, Sealed, Summand, PUBLISHED, SEALED, UNDER_BLANK_KEY};

pub struct Check {
    what: String,
    passed: bool,
}

const PUBLISHED_HEADING: &str = "\
published vector 2 of Grain-128AEAD (appendix A of the paper), edition 1, through seal
  A call authenticates a coded AD length first, which the published string lacks. So the published
  tag is checked as the sum of the tags of three strings that sum to that string.
";

const BLANK_HEADING: &str = "\
the blank key (00000000000000000000000000000000), through seal and open
  Published vector 1 is under this key. It is not run here, since both calls refuse the key. The
  program vectors of the source tree runs it on the machine below them (make, then build/vectors).
";

const SEALED_HEADING: &str = "\
stored payloads of counting bytes (00 01 02 ..), both editions, through seal and open
  They are not published. The independent implementation of the source tree (tests/model.rs) made
  them.
";

const UNNAMED_HEADING: &str = "\
the calls that name no edition
";

const UNKNOWN_HEADING: &str = "\
numbers that are no edition's, through seal and open
";

const EDITIONS: [u32; 2] = [1, 2];
const UNKNOWN: [u32; 3] = [0, 3, u32::MAX];

pub fn run() -> Result<(), Failure> {
    let sections = [
        (
            PUBLISHED_HEADING,
            PUBLISHED.iter().flat_map(published).collect(),
        ),
        (
            BLANK_HEADING,
            EDITIONS.into_iter().flat_map(blank).collect(),
        ),
        (SEALED_HEADING, SEALED.iter().flat_map(sealed).collect()),
        (UNNAMED_HEADING, Vec::from(unnamed())),
        (
            UNKNOWN_HEADING,
            UNKNOWN.into_iter().flat_map(unknown).collect(),
        ),
        (stream_checks::HEADING, stream_checks::all()),
        (frame_checks::HEADING, frame_checks::all()),
        (capture_checks::HEADING, capture_checks::all()),
        (signal_checks::HEADING, signal_checks::all()),
        (grain128a_checks::HEADING, grain128a_checks::all()),
        (grainv1_checks::HEADING, grainv1_checks::all()),
    ];
    let checks = sections.iter().flat_map(|(_, checks)| checks);
    let total = checks.clone().count();
    let failed = checks.filter(|check| !check.passed).count();
    let passed = total - failed;
    let mut report: String = sections
        .iter()
        .map(|(heading, checks)| heading.to_string() + &lines(checks))
        .collect();
    report += &format!("{passed} passed, {failed} failed\n");
    streams::write_stdout(report.as_bytes())?;
    match failed {
        0 => Ok(()),
        _ => Err(Failure::Selftest(format!(
            "selftest: {failed} of {total} checks failed"
        ))),
    }
}

fn lines(checks: &[Check]) -> String {
    let verdict = |check: &Check| if check.passed { "ok    " } else { "FAILED" };
    checks
        .iter()
        .map(|check| format!("  {} {}\n", verdict(check), check.what))
        .collect()
}

pub fn check(what: String, passed: bool) -> Check {
    Check { what, passed }
}

/// A vector that has no summands is not run.
fn published(vector: &Published) -> Vec<Check> {
    let Some(summands) = &vector.summands else {
        return Vec::new();
    };
    let key = hex::encode(&vector.key);
    // The first keystream byte lies under the coded length of the empty AD, the rest under zeros.
    let payload = under(vector, vec![], vec![0; 15]).seal(1);
    let keystream = vector.keystream.to_be_bytes();
    vec![
        check(
            format!("key {key}: the keystream from its second byte on"),
            payload.is_some_and(|payload| payload[..15] == keystream[1..]),
        ),
        check(
            format!("key {key}: the tag"),
            sum_of_tags(vector, summands) == Some(vector.tag),
        ),
    ]
}

fn under(vector: &Published, ad: Vec<u8>, message: Vec<u8>) -> Job {
    Job {
        key: vector.key.to_vec(),
        nonce: vector.nonce.to_vec(),
        ad,
        message,
    }
}

fn sum_of_tags(vector: &Published, summands: &[Summand]) -> Option<u64> {
    let mut sum = 0;
    for summand in summands {
        let payload = under(vector, summand.ad(), summand.message()).seal(1)?;
        sum ^= u64::from_be_bytes(*payload.last_chunk()?);
    }
    Some(sum)
}

/// Both calls refuse the blank key, with room for what they would write.
fn blank(edition: u32) -> [Check; 2] {
    let job = Job {
        key: vec![0; KEY_SIZE],
        nonce: UNDER_BLANK_KEY.nonce.to_vec(),
        ad: UNDER_BLANK_KEY.ad.to_vec(),
        message: UNDER_BLANK_KEY.message.to_vec(),
    };
    [
        check(
            format!("edition {edition}: seal refuses it with 15, and nothing is written"),
            job.seal_refused(edition, 15),
        ),
        check(
            format!("edition {edition}: open refuses it with 15, and nothing is written"),
            job.open_refused(edition, UNDER_BLANK_KEY.payload, 15),
        ),
    ]
}

fn sealed(vector: &Sealed) -> Vec<Check> {
    let job = Job::counting(vector.ad_len, vector.message_len);
    let of_edition = |(edition, end)| of_edition(&job, edition, end);
    vector.by_edition().flat_map(of_edition).collect()
}

/// The payload ends so, and opens under its own edition and with its own tag alone.
fn of_edition(job: &Job, edition: u32, end: &str) -> [Check; 4] {
    let payload = job.seal(edition).unwrap_or_default();
    let mut damaged = payload.clone();
    if let Some(last) = damaged.last_mut() {
        *last ^= 1;
    }
    let other = if edition == 1 { 2 } else { 1 };
    let (ad_len, message_len) = (job.ad.len(), job.message.len());
    let name = format!("edition {edition}, AD of {ad_len}, message of {message_len}");
    [
        check(
            format!("{name}: sealed as stored"),
            hex::encode(&payload).ends_with(end),
        ),
        check(
            format!("{name}: opened again"),
            job.opens(edition, &payload),
        ),
        check(
            format!("{name}: a wrong tag refused, and nothing written"),
            job.open_refused(edition, &damaged, 7),
        ),
        check(
            format!("{name}: edition {other} refuses it, and nothing is written"),
            job.open_refused(other, &payload, 7),
        ),
    ]
}

fn unnamed() -> [Check; 2] {
    let job = Job::counting(8, 16);
    let payload = job.seal(1).unwrap_or_default();
    [
        check(
            "sealed as under edition 1".to_string(),
            job.seals_unnamed(&payload),
        ),
        check(
            "opened as under edition 1".to_string(),
            job.opens_unnamed(&payload),
        ),
    ]
}

/// A payload of edition 1 is what open gets.
fn unknown(edition: u32) -> [Check; 2] {
    let job = Job::counting(8, 16);
    let payload = job.seal(1).unwrap_or_default();
    [
        check(
            format!("{edition}: seal refuses it with 23, and nothing is written"),
            job.seal_refused(edition, 23),
        ),
        check(
            format!("{edition}: open refuses it with 23, and nothing is written"),
            job.open_refused(edition, &payload, 23),
        ),
    ]
}
