//! The length codes.

use super::LENGTHS;
use crate::judge::{Judge, Verdict};
use tikhoplav::frames::{coded_length, length_code};

/// Around every power of two too, so that a number cut to fewer bits is among them.
pub fn lengths(judge: &mut Judge) -> Verdict {
    let powers = (5..32).flat_map(|k| (0..16).map(move |low| (1 << k) + low));
    for code in (0..=20).chain(powers).chain([u32::MAX]) {
        let expected = LENGTHS
            .get(code as usize)
            .map_or(-10, |&bytes| bytes as i64);
        let model = answer(model::frames::coded_length(code).map(|bytes| bytes as i64));
        let same = [coded_length(code), model] == [expected; 2];
        judge.holds(&format!("code {code} means {expected}"), same)?;
    }
    Ok(())
}

pub fn codes(judge: &mut Judge) -> Verdict {
    let powers = (7..usize::BITS).flat_map(|k| (0..65).map(move |low| (1 << k) + low));
    for length in (0..=70).chain(powers).chain([usize::MAX]) {
        let holds = |&bytes: &usize| bytes >= length;
        let expected = LENGTHS
            .iter()
            .position(holds)
            .map_or(-10, |code| code as i64);
        let model = answer(model::frames::length_code(length).map(i64::from));
        let same = [length_code(length), model] == [expected; 2];
        judge.holds(&format!("length {length} has code {expected}"), same)?;
    }
    Ok(())
}

fn answer(result: Result<i64, u8>) -> i64 {
    result.unwrap_or_else(|number| -i64::from(number))
}
