//! Grain-128a beside the yardstick.

use crate::rounds::Pair;
use std::hint::black_box;
use tikhoplav::archive::Call;
use tikhoplav::sizes::{grain128a_tag_size, KEY_SIZE, NONCE_SIZE};
use tikhoplav::vectors::counting;

pub const TAG_BITS: u32 = 32;

#[derive(Clone)]
struct Job {
    key: Vec<u8>,
    nonce: Vec<u8>,
    data: Vec<u8>,
    out: Vec<u8>,
}

impl Job {
    /// On a message of counting bytes, with a nonce whose bit 0 is this.
    fn new(bit: u8, message_len: usize, room: usize) -> Job {
        let mut nonce = counting(NONCE_SIZE);
        nonce[0] = bit << 7;
        Job {
            key: counting(KEY_SIZE),
            nonce,
            data: counting(message_len),
            out: vec![0; room],
        }
    }

    fn sealing(message_len: usize) -> Job {
        Job::new(1, message_len, message_len + grain128a_tag_size(TAG_BITS))
    }

    fn opening(message_len: usize) -> Job {
        let mut sealing = Job::sealing(message_len);
        sealing.by_archive(Call::Seal);
        Job {
            data: sealing.out,
            out: vec![0; message_len],
            ..sealing
        }
    }

    fn crypt(message_len: usize) -> Job {
        Job::new(0, message_len, message_len)
    }

    fn by_archive(&mut self, call: Call) {
        let (key, nonce) = (black_box(&self.key), &self.nonce);
        let answer =
            tikhoplav::grain128a::run(call, key, nonce, TAG_BITS, &self.data, &mut self.out);
        self.answered(answer);
    }

    fn crypt_by_archive(&mut self) {
        let (key, nonce) = (black_box(&self.key), &self.nonce);
        let answer = tikhoplav::grain128a::crypt(key, nonce, &self.data, &mut self.out);
        self.answered(answer);
    }

    fn answered(&mut self, answer: i64) {
        assert_eq!(answer, self.out.len() as i64, "the archive refuses");
        black_box(&mut self.out);
    }

    fn by_yardstick(&mut self, call: Call) {
        let run = match call {
            Call::Seal => model::grain128a::seal,
            Call::Open => model::grain128a::open,
        };
        let (key, nonce, room) = (black_box(&self.key), &self.nonce, self.out.len());
        self.written(run(key, nonce, TAG_BITS, &self.data, room));
    }

    fn crypt_by_yardstick(&mut self) {
        let (key, nonce, room) = (black_box(&self.key), &self.nonce, self.out.len());
        self.written(model::grain128a::crypt(key, nonce, &self.data, room));
    }

    fn written(&mut self, written: Result<Vec<u8>, u8>) {
        self.out
            .copy_from_slice(&written.expect("the yardstick refuses"));
        black_box(&mut self.out);
    }
}

/// The same job by both, which give the same.
fn pair(job: Job, ours: fn(&mut Job), yardstick: fn(&mut Job)) -> Pair {
    let (mut first, mut second) = (job.clone(), job);
    ours(&mut first);
    yardstick(&mut second);
    assert_eq!(first.out, second.out);
    Pair {
        ours: Box::new(move || ours(&mut first)),
        yardstick: Box::new(move || yardstick(&mut second)),
    }
}

pub fn sealing(message_len: usize) -> Pair {
    pair(
        Job::sealing(message_len),
        |job| job.by_archive(Call::Seal),
        |job| job.by_yardstick(Call::Seal),
    )
}

pub fn opening(message_len: usize) -> Pair {
    pair(
        Job::opening(message_len),
        |job| job.by_archive(Call::Open),
        |job| job.by_yardstick(Call::Open),
    )
}

pub fn crypt(message_len: usize) -> Pair {
    pair(
        Job::crypt(message_len),
        Job::crypt_by_archive,
        Job::crypt_by_yardstick,
    )
}

/// Crypt by the archive, with the yardstick's sealing of the same message.
pub fn crypt_to_sealing(message_len: usize) -> Pair {
    let mut crypt = Job::crypt(message_len);
    let mut sealing = Job::sealing(message_len);
    assert_eq!(crypt.data, sealing.data);
    Pair {
        ours: Box::new(move || crypt.crypt_by_archive()),
        yardstick: Box::new(move || sealing.by_yardstick(Call::Seal)),
    }
}
