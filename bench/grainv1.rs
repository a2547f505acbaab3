//! Grain v1 beside the yardstick.

use crate::rounds::Pair;
use std::hint::black_box;
use tikhoplav::sizes::{GRAINV1_KEY_SIZE, GRAINV1_NONCE_SIZE};
use tikhoplav::vectors::counting;

#[derive(Clone)]
struct Job {
    key: Vec<u8>,
    nonce: Vec<u8>,
    message: Vec<u8>,
    out: Vec<u8>,
}

impl Job {
    fn by_archive(&mut self) {
        let (key, nonce) = (black_box(&self.key), &self.nonce);
        let answer = tikhoplav::grainv1::crypt(key, nonce, &self.message, &mut self.out);
        assert_eq!(answer, self.out.len() as i64, "the archive refuses");
        black_box(&mut self.out);
    }

    fn by_yardstick(&mut self) {
        let (key, nonce, room) = (black_box(&self.key), &self.nonce, self.out.len());
        let written = model::grainv1::crypt(key, nonce, &self.message, room);
        self.out
            .copy_from_slice(&written.expect("the yardstick refuses"));
        black_box(&mut self.out);
    }
}

/// The same job by both, which give the same.
pub fn crypt(message_len: usize) -> Pair {
    let mut ours = Job {
        key: counting(GRAINV1_KEY_SIZE),
        nonce: counting(GRAINV1_NONCE_SIZE),
        message: counting(message_len),
        out: vec![0; message_len],
    };
    let mut yardstick = ours.clone();
    ours.by_archive();
    yardstick.by_yardstick();
    assert_eq!(ours.out, yardstick.out);
    Pair {
        ours: Box::new(move || ours.by_archive()),
        yardstick: Box::new(move || yardstick.by_yardstick()),
    }
}
