//! The judge of captures.

use crate::judge::{Judge, Verdict};
use model::captures::{frames, Body};
use tikhoplav::captures;
use tikhoplav::hex;

/// The frames of a capture in walking order, or the number of its refusal.
pub type Walked = Result<Vec<Body>, u8>;

impl Judge {
    /// All three calls, the latter two on every frame and on numbers past the last, answer by this,
    /// and so does the model.
    pub fn expect_capture(&mut self, capture: &[u8], expected: &Walked) -> Verdict {
        let numbers = 0..count(expected) as u64;
        self.expect_frames(capture, expected, numbers)
    }

    /// As `expect_capture`, on these frames and on numbers past the last.
    pub fn expect_frames(
        &mut self,
        capture: &[u8],
        expected: &Walked,
        numbers: impl Iterator<Item = u64>,
    ) -> Verdict {
        self.same(capture, "the model", &frames(capture), expected)?;
        let answer = captures::frames(capture);
        let counted = expected
            .as_ref()
            .map_or_else(refusal, |found| found.len() as i64);
        self.same(capture, "the count", &answer, &counted)?;
        for number in numbers.chain(past(count(expected) as u64)) {
            let answers = [
                captures::frame(capture, number),
                captures::frame_size(capture, number),
            ];
            let what = format!("frame {number}");
            self.same(capture, &what, &answers, &by_number(expected, number))?;
        }
        Ok(())
    }

    /// The archive does what the model does.
    pub fn agree_on_capture(&mut self, capture: &[u8]) -> Verdict {
        self.expect_capture(capture, &frames(capture))
    }

    fn same<T: PartialEq + std::fmt::Debug>(
        &mut self,
        capture: &[u8],
        what: &str,
        found: &T,
        expected: &T,
    ) -> Verdict {
        self.comparisons += 1;
        if found == expected {
            return Ok(());
        }
        Err(format!(
            "{what}\n  capture  {}\n  found    {found:?}\n  expected {expected:?}",
            hex::encode(capture)
        ))
    }
}

fn count(walked: &Walked) -> usize {
    walked.as_ref().map_or(0, Vec::len)
}

fn refusal(number: &u8) -> i64 {
    -i64::from(*number)
}

/// Numbers that no frame has, where there are so many: also such that have a frame's where they are
/// cut to fewer bits.
fn past(count: u64) -> impl Iterator<Item = u64> {
    let far = [1 << 16, 1 << 32, 1 << 63, u64::MAX];
    let cut = [1 << 32, 1 << 63].map(|high| high + count.saturating_sub(1));
    [count, count + 1].into_iter().chain(far).chain(cut)
}

/// Place and length of the body, or twice the refusal.
fn by_number(walked: &Walked, number: u64) -> [i64; 2] {
    let found = match walked {
        Ok(found) => usize::try_from(number)
            .ok()
            .and_then(|number| found.get(number))
            .ok_or(17),
        Err(number) => Err(*number),
    };
    match found {
        Ok(body) => [body.place as i64, body.size as i64],
        Err(number) => [-i64::from(number); 2],
    }
}
