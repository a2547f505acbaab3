//! The mode without authentication.

use super::trial::{Call, Trial};
use crate::judge::{Judge, Verdict};
use tikhoplav::sizes::MESSAGE_MAX;

const RANDOM_TRIALS: usize = 500;

/// Twice gives the message back.
pub fn twice(judge: &mut Judge) -> Verdict {
    for message_len in (0..=300).chain([MESSAGE_MAX - 1, MESSAGE_MAX]) {
        let once = judge.grain128a(Call::Crypt, 32, message_len);
        let mut enciphered = once.by_archive().out;
        enciphered.truncate(message_len);
        let again = Trial {
            data: enciphered,
            ..once.clone()
        };
        judge.agree_on_grain128a(&once)?;
        judge.expect_grain128a(&again, &again.success(&once.data))?;
    }
    Ok(())
}

/// Two messages under one key and nonce differ where what is written differs, as far as both go.
pub fn sums(judge: &mut Judge) -> Verdict {
    for _ in 0..RANDOM_TRIALS {
        let lens = [judge.random.below(200), judge.random.below(200)];
        let first = judge.grain128a(Call::Crypt, 32, lens[0]);
        let second = Trial {
            data: judge.random.bytes(lens[1]),
            lent: judge.random.bytes(lens[1]),
            ..first.clone()
        };
        let shared = lens[0].min(lens[1]);
        let written = [&first, &second].map(|trial| trial.by_archive().out);
        let messages = sum(&first.data[..shared], &second.data[..shared]);
        let outputs = sum(&written[0][..shared], &written[1][..shared]);
        judge.holds("the differences are the same", messages == outputs)?;
    }
    Ok(())
}

fn sum(a: &[u8], b: &[u8]) -> Vec<u8> {
    a.iter().zip(b).map(|(a, b)| a ^ b).collect()
}
