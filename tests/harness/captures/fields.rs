//! Random captures with one field changed.

use super::judge::Walked;
use crate::judge::{Judge, Verdict};
use crate::random::Random;
use model::capture_writer::{write, Field, Written};
use model::captures::{frames, Body};

const RANDOM_TRIALS: usize = 800;

/// Each field of each capture in turn has other values.
pub fn every_field(judge: &mut Judge) -> Verdict {
    for _ in 0..RANDOM_TRIALS {
        let written = write(&judge.random.items(6, 400));
        for (field, body) in &written.fields {
            for bytes in others(&mut judge.random, &written.bytes, body) {
                let mut damaged = written.bytes.clone();
                damaged[body.place..body.place + body.size].copy_from_slice(&bytes);
                let expected = expected(&written, *field, &bytes, &damaged);
                judge.expect_capture(&damaged, &expected)?;
            }
        }
    }
    Ok(())
}

/// One more, one less, zeros, ones, one bit changed, random bytes; all differ from what is there.
fn others(random: &mut Random, capture: &[u8], field: &Body) -> Vec<Vec<u8>> {
    let there = &capture[field.place..field.place + field.size];
    if there.is_empty() {
        return Vec::new();
    }
    let (mut more, mut less, mut bit) = (there.to_vec(), there.to_vec(), there.to_vec());
    let last = there.len() - 1;
    more[last] = more[last].wrapping_add(1);
    less[last] = less[last].wrapping_sub(1);
    bit[random.below(there.len())] ^= 1 << random.below(8);
    let filled = [vec![0; there.len()], vec![0xff; there.len()]];
    let all = [more, less, bit, random.bytes(there.len())];
    all.into_iter()
        .chain(filled)
        .filter(|bytes| bytes != there)
        .collect()
}

/// By the field: only what a kind becomes is the model's to say, since a frame's body may be a
/// section, and a group's a frame.
fn expected(written: &Written, field: Field, bytes: &[u8], damaged: &[u8]) -> Walked {
    let sound = || Ok(written.frames.clone());
    match field {
        Field::Count | Field::Length | Field::Offset | Field::Code => Err(16),
        Field::Identifier if bytes[0] >= 0x20 => Err(16),
        Field::Identifier | Field::Nonce | Field::Data => sound(),
        Field::Kind if bytes[0] > 1 => Err(16),
        Field::Kind => frames(damaged),
        Field::Body => unreachable!("a sound capture"),
    }
}
