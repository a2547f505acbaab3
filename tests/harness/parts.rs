//! The two parts of sealed inputs.

use crate::judge::{Judge, Verdict};
use tikhoplav::archive;
use tikhoplav::sizes::SEALED_MAX;

pub fn run(judge: &mut Judge) -> Verdict {
    for length in (0..=300).chain(SEALED_MAX - 1..=SEALED_MAX + 1) {
        let sealed = judge.random.bytes(length);
        let same = archive::parts(&sealed) == model::parts(&sealed);
        judge.holds(&format!("the same parts of {length} bytes"), same)?;
    }
    Ok(())
}
