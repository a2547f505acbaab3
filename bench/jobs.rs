//! What is timed. Each piece of work is checked against the yardstick's once.

use crate::probes;
use crate::rounds::{least, timed, Pair, ROUNDS};
use model::Edition;
use std::hint::black_box;
use tikhoplav::archive::Call;
use tikhoplav::sizes::{KEY_SIZE, NONCE_SIZE, TAG_SIZE};
use tikhoplav::vectors::counting;

pub const AD_LEN: usize = 8;
/// The registers that the engines start from, as a key and a nonce that the yardstick can load.
const KEY: [u8; KEY_SIZE] = [0x5a; KEY_SIZE];
const NONCE: [u8; NONCE_SIZE] = [0xc3; NONCE_SIZE];

#[derive(Clone)]
pub struct Job {
    pub call: Call,
    pub edition: u32,
    pub key: Vec<u8>,
    pub nonce: Vec<u8>,
    pub ad: Vec<u8>,
    pub data: Vec<u8>,
    pub out: Vec<u8>,
}

impl Job {
    pub fn sealing(edition: u32, ad_len: usize, message_len: usize) -> Job {
        Job {
            call: Call::Seal,
            edition,
            key: counting(KEY_SIZE),
            nonce: counting(NONCE_SIZE),
            ad: counting(ad_len),
            data: counting(message_len),
            out: vec![0; message_len + TAG_SIZE],
        }
    }

    pub fn opening(edition: u32, ad_len: usize, message_len: usize) -> Job {
        let mut sealing = Job::sealing(edition, ad_len, message_len);
        sealing.by_archive();
        Job {
            call: Call::Open,
            data: sealing.out,
            out: vec![0; message_len],
            ..sealing
        }
    }

    pub fn by_archive(&mut self) {
        let answer = self.call.run(
            self.edition,
            black_box(&self.key),
            &self.nonce,
            &self.ad,
            &self.data,
            &mut self.out,
        );
        assert_eq!(answer, self.out.len() as i64, "the archive refuses");
        black_box(&mut self.out);
    }

    fn by_yardstick(&mut self) {
        let run = match self.call {
            Call::Seal => model::seal,
            Call::Open => model::open,
        };
        let written = run(
            self.edition,
            black_box(&self.key),
            &self.nonce,
            &self.ad,
            &self.data,
            self.out.len(),
        );
        self.out
            .copy_from_slice(&written.expect("the yardstick refuses"));
        black_box(&mut self.out);
    }

    fn pair(self) -> Pair {
        let (mut ours, mut yardstick) = (self.clone(), self);
        ours.by_archive();
        yardstick.by_yardstick();
        assert_eq!(ours.out, yardstick.out);
        Pair {
            ours: Box::new(move || ours.by_archive()),
            yardstick: Box::new(move || yardstick.by_yardstick()),
        }
    }
}

pub fn sealing(edition: u32, message_len: usize) -> Pair {
    Job::sealing(edition, AD_LEN, message_len).pair()
}

pub fn opening(edition: u32, message_len: usize) -> Pair {
    Job::opening(edition, AD_LEN, message_len).pair()
}

/// The second edition by the archive, with the first by the archive as its yardstick.
pub fn sealing_second_to_first(message_len: usize) -> Pair {
    second_to_first(Job::sealing, message_len)
}

pub fn opening_second_to_first(message_len: usize) -> Pair {
    second_to_first(Job::opening, message_len)
}

fn second_to_first(job: fn(u32, usize, usize) -> Job, message_len: usize) -> Pair {
    let mut first = job(1, AD_LEN, message_len);
    let mut second = job(2, AD_LEN, message_len);
    Pair {
        ours: Box::new(move || second.by_archive()),
        yardstick: Box::new(move || first.by_archive()),
    }
}

/// The best rounds of sealing and of opening, by turns.
pub fn opening_to_sealing(message_len: usize) -> f64 {
    let mut sealing = Job::sealing(1, AD_LEN, message_len);
    let mut opening = Job::opening(1, AD_LEN, message_len);
    let rounds: Vec<(f64, f64)> = (0..ROUNDS)
        .map(|_| {
            (
                timed(&mut || sealing.by_archive()),
                timed(&mut || opening.by_archive()),
            )
        })
        .collect();
    least(rounds.iter().map(|round| round.0)) / least(rounds.iter().map(|round| round.1))
}

pub fn start_up() -> Pair {
    let ours = || probes::start_up(black_box(&KEY), black_box(&NONCE));
    let yardstick = || {
        let (key, nonce) = (black_box(&KEY), black_box(&NONCE));
        model::Machine::start(Edition::First, key, nonce).accumulator()
    };
    same(ours, yardstick)
}

pub fn plain_engine(clocks: usize) -> Pair {
    engine(probes::plain_engine, clocks)
}

pub fn strokes(clocks: usize) -> Pair {
    engine(probes::strokes, clocks)
}

/// An engine and the yardstick's clocks, from the loaded registers.
fn engine(run: fn(probes::Words, usize) -> u64, clocks: usize) -> Pair {
    let loaded = |key| model::Machine::loaded(Edition::First, key, &NONCE);
    let words = loaded(&KEY).words();
    same(
        move || run(black_box(words), clocks),
        move || loaded(black_box(&KEY)).run(clocks),
    )
}

/// Two pieces of work that answer the same number.
fn same(ours: impl Fn() -> u64 + 'static, yardstick: impl Fn() -> u64 + 'static) -> Pair {
    assert_eq!(ours(), yardstick());
    Pair {
        ours: Box::new(move || {
            black_box(ours());
        }),
        yardstick: Box::new(move || {
            black_box(yardstick());
        }),
    }
}
