//! Captures full of frames, all but one or two without data, judged and gone through.

use crate::rounds::{least, timed, Pair, ROUNDS};
use model::capture_writer::write;
use model::full_capture::full;
use std::hint::black_box;
use tikhoplav::captures;
use tikhoplav::sizes::CAPTURE_MAX;

const KIB: usize = 1024;
const LENS: [usize; 5] = [KIB, 4 * KIB, 16 * KIB, 32 * KIB, CAPTURE_MAX];
/// Going through all frames takes longer than a round.
const STEPPING_ROUNDS: usize = 5;

/// Judging a capture of so many bytes, with the independent reader as the yardstick.
pub fn judging(len: usize) -> Pair {
    let capture = write(&full(len)).bytes;
    let by_model = model::captures::frames(&capture).expect("a sound capture");
    assert_eq!(captures::frames(&capture), by_model.len() as i64);
    let read = capture.clone();
    Pair {
        ours: Box::new(move || judge(&capture)),
        yardstick: Box::new(move || {
            let found = model::captures::frames(black_box(&read));
            assert!(black_box(found).is_ok(), "the yardstick refuses");
        }),
    }
}

fn judge(capture: &[u8]) {
    let answer = captures::frames(black_box(capture));
    assert!(answer >= 0, "the archive refuses");
}

/// Place and length of every frame.
fn step_through(capture: &[u8], count: u64) {
    for number in 0..count {
        let capture = black_box(capture);
        let answers = [
            captures::frame(capture, number),
            captures::frame_size(capture, number),
        ];
        assert!(answers.iter().all(|&answer| answer > 0), "no such frame");
    }
}

fn best(rounds: usize, mut work: impl FnMut()) -> f64 {
    least((0..rounds).map(|_| timed(&mut work)))
}

/// The cost of a byte when judging, at each length, as a part of that at the largest. The lengths
/// take turns.
pub fn print_growth() {
    let captures = LENS.map(|len| write(&full(len)).bytes);
    let round = |_| {
        captures
            .each_ref()
            .map(|capture| timed(&mut || judge(capture)))
    };
    let rounds: Vec<[f64; LENS.len()]> = (0..ROUNDS).map(round).collect();
    let cost = |place: usize| least(rounds.iter().map(|round| round[place])) / LENS[place] as f64;
    for (place, len) in LENS.iter().enumerate() {
        let part = cost(place) / cost(LENS.len() - 1);
        println!("{:<26} {len:>7} {part:>8.2}", "judging, bytes");
    }
}

/// Going through all frames of the longest capture, times one judging of it, and in seconds.
pub fn print_stepping() {
    let written = write(&full(CAPTURE_MAX));
    let (capture, count) = (written.bytes, written.frames.len());
    let judging = best(ROUNDS, || judge(&capture));
    let stepping = best(STEPPING_ROUNDS, || step_through(&capture, count as u64));
    let times = stepping / judging;
    let name = "all frames by number";
    println!("{name:<26} {count:>7} {times:>8.0}  ({stepping:.3} s)");
}
