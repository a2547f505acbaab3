//! AD of every length around the borders of the coded length's forms, around the powers of two
//! above them, and of the greatest length.

use crate::judge::{Judge, Verdict};
use crate::trial::Trial;
use tikhoplav::sizes::AD_MAX;

const MESSAGE_LENS: [usize; 3] = [0, 1, 20];

/// The most bytes behind the first, in any of the forms that are tried.
const LONGEST: usize = 3;

fn ad_lens() -> impl Iterator<Item = usize> {
    let powers = (9..).map(|k| 1 << k).take_while(|&power| power < AD_MAX);
    let around_powers = powers.flat_map(|power| power - 1..=power + 1);
    (0..=300).chain(around_powers).chain([AD_MAX])
}

pub fn shortest(judge: &mut Judge) -> Verdict {
    for ad_len in ad_lens() {
        for message_len in MESSAGE_LENS {
            for (trial, result) in judge.both_calls(ad_len, message_len) {
                judge.expect(&trial, &trial.success(&result))?;
            }
        }
    }
    Ok(())
}

/// A payload whose AD length is coded in a longer form is refused.
pub fn longer(judge: &mut Judge) -> Verdict {
    for ad_len in ad_lens() {
        for count in model::coded_length(ad_len).len()..=LONGEST {
            let sealing = judge.sealing(ad_len, 20);
            let opening = Trial {
                data: model::payload(
                    sealing.known_edition(),
                    &sealing.key,
                    &sealing.nonce,
                    &coded_in(count, ad_len),
                    &sealing.ad,
                    &sealing.data,
                ),
                ..judge.opening(&sealing)
            };
            judge.expect(&opening, &opening.refusal(7))?;
        }
    }
    Ok(())
}

/// Byte 0x80 + count, and the length in that many bytes, high byte first.
fn coded_in(count: usize, ad_len: usize) -> Vec<u8> {
    let bytes = ad_len.to_be_bytes();
    [&[0x80 + count as u8], &bytes[bytes.len() - count..]].concat()
}
