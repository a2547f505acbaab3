//! Numbers that are no edition's, and payloads of the other edition.

use crate::judge::{Judge, Verdict};
use crate::trial::Trial;
use tikhoplav::sizes::{AD_MAX, MESSAGE_MAX, SEALED_MAX};

const RANDOM_TRIALS: usize = 1_000;

/// Around every power of two, so that a number cut to fewer bits is among them.
fn unknown_numbers() -> impl Iterator<Item = u32> {
    let powers = (2..32).flat_map(|k| (0..4).map(move |low| (1 << k) + low));
    [0, 3, u32::MAX - 1, u32::MAX].into_iter().chain(powers)
}

/// Refused before all else: with everything in order, and with everything wrong that can be.
pub fn unknown(judge: &mut Judge) -> Verdict {
    for edition in unknown_numbers() {
        for (trial, _) in judge.both_calls(5, 20) {
            let trial = Trial { edition, ..trial };
            judge.expect(&trial, &trial.refusal(23))?;
            let wrong = Trial {
                key: vec![0; 15],
                nonce: Vec::new(),
                ad: vec![0; AD_MAX + 1],
                data: vec![0; SEALED_MAX + 1],
                lent: judge.random.bytes(3),
                ..trial
            };
            judge.expect(&wrong, &wrong.refusal(23))?;
        }
    }
    Ok(())
}

/// What this edition seals the other refuses, with room for the message.
pub fn crossed(judge: &mut Judge) -> Verdict {
    let small = (0..=20).flat_map(|ad_len| (0..=20).map(move |message_len| (ad_len, message_len)));
    let lens: Vec<(usize, usize)> = small
        .chain([(127, 5), (128, 5), (255, 5), (256, 5)])
        .collect();
    for (ad_len, message_len) in lens {
        refused_by_the_other(judge, ad_len, message_len)?;
    }
    for _ in 0..RANDOM_TRIALS {
        let (ad_len, message_len) = (judge.random.below(300), judge.random.below(300));
        refused_by_the_other(judge, ad_len, message_len)?;
    }
    refused_by_the_other(judge, AD_MAX, MESSAGE_MAX)
}

fn refused_by_the_other(judge: &mut Judge, ad_len: usize, message_len: usize) -> Verdict {
    let sealing = judge.sealing(ad_len, message_len);
    let opening = Trial {
        edition: if judge.edition == 1 { 2 } else { 1 },
        ..judge.opening(&sealing)
    };
    judge.expect(&opening, &opening.refusal(7))
}
