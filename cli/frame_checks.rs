//! The selftest's stored frames.

use crate::frame_job::FrameJob;
use crate::selftest::{check, Check};
use tikhoplav::hex;
use tikhoplav::sizes::TAG_SIZE;
use tikhoplav::vectors::{Framed, FRAMED};

pub const HEADING: &str = "\
stored CAN FD frames of counting bytes (00 01 02 ..), both editions, through frame make and frame read
  They are not published. Ciphertext and tag are what seal gives with the AD of the frame.
";

pub fn all() -> Vec<Check> {
    FRAMED.iter().flat_map(framed).collect()
}

fn framed(vector: &Framed) -> Vec<Check> {
    let job = FrameJob::counting(vector.identifier, vector.message_len);
    let (identifier, message_len) = (vector.identifier, vector.message_len);
    let mut checks = Vec::new();
    for (edition, field) in vector.by_edition() {
        let field = hex::decode(field.as_bytes()).expect("stored in hex");
        let name =
            format!("edition {edition}, identifier {identifier:X}, message of {message_len}");
        let mut add = |what: &str, passed| checks.push(check(format!("{name}: {what}"), passed));
        add("made as stored", job.makes(Some(edition), &field));
        add("read again", job.reads(Some(edition), &field));
        if edition == 1 {
            add(
                "made so by the call that names no edition",
                job.makes(None, &field),
            );
            add(
                "read so by the call that names no edition",
                job.reads(None, &field),
            );
        }
        refusals(&job, edition, &field, add);
    }
    checks
}

/// One bit is changed: in the length byte, in the filler if there is any, in the tag.
fn refusals(job: &FrameJob, edition: u32, field: &[u8], mut add: impl FnMut(&str, bool)) {
    let end_of_tag = 1 + usize::from(field[0]) + TAG_SIZE;
    let mut refused = |what: &str, place: usize, bit: u8, number: i64| {
        let mut damaged = field.to_vec();
        damaged[place] ^= bit;
        let what = format!("{what} refused with {number}, and nothing written");
        add(&what, job.read_refused(edition, &damaged, number));
    };
    refused("a wrong message length", 0, 0x80, 11);
    if end_of_tag < field.len() {
        refused("filler other than zero", field.len() - 1, 1, 12);
    }
    refused("a wrong tag", end_of_tag - 1, 1, 7);
}
