//! The call applied again, and to several messages.

use super::judge::sum;
use super::trial::Trial;
use crate::judge::{Judge, Verdict};
use tikhoplav::sizes::MESSAGE_MAX;

const RANDOM_TRIALS: usize = 500;

/// Twice gives the message back.
pub fn twice(judge: &mut Judge) -> Verdict {
    for message_len in (0..=400).chain([MESSAGE_MAX - 1, MESSAGE_MAX]) {
        let once = judge.grainv1(message_len);
        judge.accepts_grainv1(&once)?;
        let again = Trial {
            message: once.by_archive().out,
            lent: judge.random.bytes(message_len + 3),
            ..once.clone()
        };
        judge.expect_grainv1(&again, &again.success(&once.message))?;
    }
    Ok(())
}

/// Two messages under one key and nonce differ where what is written differs, as far as both go.
pub fn sums(judge: &mut Judge) -> Verdict {
    for _ in 0..RANDOM_TRIALS {
        let lens = [judge.random.below(200), judge.random.below(200)];
        let first = judge.grainv1(lens[0]);
        let second = Trial {
            message: judge.random.bytes(lens[1]),
            lent: judge.random.bytes(lens[1]),
            ..first.clone()
        };
        let written = [&first, &second].map(|trial| trial.by_archive().out);
        let messages = sum(&first.message, &second.message);
        let outputs = sum(&written[0], &written[1]);
        judge.holds("the differences are the same", messages == outputs)?;
    }
    Ok(())
}

/// A shorter message gives the front of what a longer one gives.
pub fn fronts(judge: &mut Judge) -> Verdict {
    let whole = judge.grainv1(300);
    let written = whole.by_archive().out;
    for length in 0..=300 {
        let mut front = whole.clone();
        front.message.truncate(length);
        judge.expect_grainv1(&front, &front.success(&written[..length]))?;
    }
    Ok(())
}
