//! Counts at their borders under every kind, phase and edition, such as can occur and such as can't.

use crate::judge::{Judge, Verdict};
use tikhoplav::sizes::{MESSAGE_MAX, STATE_SIZE};

const AD_COUNTS: [u16; 8] = [0, 1, 255, 256, 257, 32768, 65534, 65535];
const MESSAGE_COUNTS: [u16; 8] = [0, 1, 255, 256, 61439, 61440, 61441, 65535];

/// What stands behind the registers.
#[derive(Clone, Copy)]
struct Fields {
    kind: u8,
    phase: u8,
    ad_len: u16,
    ad_taken: u16,
    message_taken: u16,
    edition: u8,
}

pub fn borders(judge: &mut Judge) -> Verdict {
    for ad_len in AD_COUNTS {
        for ad_taken in AD_COUNTS {
            for message_taken in MESSAGE_COUNTS {
                let counts = Fields {
                    kind: 1,
                    phase: 0,
                    ad_len,
                    ad_taken,
                    message_taken,
                    edition: judge.edition as u8,
                };
                under_all(judge, counts)?;
            }
        }
    }
    Ok(())
}

fn under_all(judge: &mut Judge, counts: Fields) -> Verdict {
    for kind in 0..=3 {
        for phase in 0..=2 {
            tried(
                judge,
                Fields {
                    kind,
                    phase,
                    ..counts
                },
            )?;
        }
    }
    for edition in [0, 1, 2, 3, 255] {
        tried(judge, Fields { edition, ..counts })?;
    }
    Ok(())
}

/// Every call, on registers of random bytes.
fn tried(judge: &mut Judge, fields: Fields) -> Verdict {
    let mut state = judge.random.bytes(48);
    state.extend([fields.kind, fields.phase]);
    for count in [fields.ad_len, fields.ad_taken, fields.message_taken] {
        state.extend(count.to_be_bytes());
    }
    state.push(fields.edition);
    state.resize(STATE_SIZE, 0);
    for call in judge.calls(1, &state) {
        let answer = judge.agree(&call, &state)?.answer;
        judge.holds(
            "14 is for what can't occur",
            (answer != -14) == can_occur(fields),
        )?;
    }
    Ok(())
}

fn can_occur(fields: Fields) -> bool {
    let has_ad = fields.ad_taken == fields.ad_len;
    let known = [1, 2].contains(&fields.kind) && [1, 2].contains(&fields.edition);
    let counts = match fields.message_taken {
        0 => fields.ad_taken <= fields.ad_len,
        taken => has_ad && usize::from(taken) <= MESSAGE_MAX,
    };
    known && counts && (fields.phase == 0 || fields.phase == 1 && has_ad)
}
