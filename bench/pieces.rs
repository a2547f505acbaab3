//! Payloads in pieces, with the archive's call on the whole string as the yardstick.

use crate::jobs::{Job, AD_LEN};
use crate::rounds::Pair;
use std::hint::black_box;
use tikhoplav::archive::Call;
use tikhoplav::pieces::{self, Kind};
use tikhoplav::sizes::{STATE_SIZE, TAG_SIZE};

pub fn sealing(edition: u32, message_len: usize, piece_len: usize) -> Pair {
    pair(Job::sealing(edition, AD_LEN, message_len), piece_len)
}

/// Beside opening.
pub fn checking(edition: u32, message_len: usize, piece_len: usize) -> Pair {
    pair(Job::opening(edition, AD_LEN, message_len), piece_len)
}

fn pair(job: Job, piece_len: usize) -> Pair {
    let (mut ours, mut whole) = (job.clone(), job);
    in_pieces(&mut ours, piece_len);
    if ours.call == Call::Seal {
        whole.by_archive();
        assert_eq!(ours.out, whole.out);
    }
    Pair {
        ours: Box::new(move || in_pieces(&mut ours, piece_len)),
        yardstick: Box::new(move || whole.by_archive()),
    }
}

fn in_pieces(job: &mut Job, piece_len: usize) {
    match job.call {
        Call::Seal => seal(job, piece_len),
        Call::Open => check(job, piece_len),
    }
}

fn seal(job: &mut Job, piece_len: usize) {
    let mut state = begin(Kind::Sealing, job, piece_len);
    let (ciphertext, tag) = job.out.split_at_mut(job.data.len());
    let outs = ciphertext.chunks_mut(piece_len);
    for (piece, out) in job.data.chunks(piece_len).zip(outs) {
        accept(pieces::message(&mut state, piece, out));
    }
    accept(pieces::sealing_finish(&mut state, tag));
    black_box(&mut job.out);
}

fn check(job: &Job, piece_len: usize) {
    let mut state = begin(Kind::Checking, job, piece_len);
    let (ciphertext, tag) = job.data.split_at(job.data.len() - TAG_SIZE);
    for piece in ciphertext.chunks(piece_len) {
        accept(pieces::ciphertext(&mut state, piece));
    }
    accept(pieces::checking_finish(&mut state, tag));
    black_box(&mut state);
}

/// The state of a stream that has taken the AD.
fn begin(kind: Kind, job: &Job, piece_len: usize) -> [u8; STATE_SIZE] {
    let mut state = [0; STATE_SIZE];
    let key = black_box(&job.key);
    accept(kind.begin(job.edition, &mut state, key, &job.nonce, job.ad.len()));
    for piece in job.ad.chunks(piece_len) {
        accept(kind.ad(&mut state, piece));
    }
    state
}

fn accept(answer: i64) {
    assert!(answer > 0, "the archive refuses");
}
