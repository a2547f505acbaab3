//! Captures up to the longest, and longer.

use super::sample::SAMPLE;
use crate::judge::{Judge, Verdict};
use model::capture_writer::write;
use model::full_capture::full;

const LONGEST: usize = 65_536;

/// Full of frames, of every length around the limit.
pub fn around_limit(judge: &mut Judge) -> Verdict {
    for len in LONGEST - 40..=LONGEST + 40 {
        let written = write(&full(len));
        judge.holds("so many bytes", written.bytes.len() == len)?;
        let count = written.frames.len() as u64;
        let expected = match len {
            ..=LONGEST => Ok(written.frames),
            _ => Err(16),
        };
        let some = [0, 1, 254, 255, 256, count - 2, count - 1];
        judge.expect_frames(&written.bytes, &expected, some.into_iter())?;
    }
    Ok(())
}

pub fn every_frame(judge: &mut Judge) -> Verdict {
    let written = write(&full(LONGEST));
    judge.holds("2616 frames", written.frames.len() == 2616)?;
    judge.expect_capture(&written.bytes, &Ok(written.frames))
}

/// The sample with zeros behind it, so that it is sound where its length is cut to fewer bits; a
/// capture with nothing but zeros; one of random bytes.
pub fn over_limit(judge: &mut Judge) -> Verdict {
    for len in [1 << 16, 1 << 17, 1 << 20, 1 << 24] {
        let mut capture = SAMPLE.to_vec();
        capture.resize(len + SAMPLE.len(), 0);
        judge.expect_capture(&capture, &Err(16))?;
        capture.fill(0);
        judge.expect_capture(&capture, &Err(16))?;
        judge.expect_capture(&capture[..len + 2], &Err(16))?;
        let random = judge.random.bytes(len + 1);
        judge.expect_capture(&random, &Err(16))?;
    }
    Ok(())
}
