//! The designers' vectors, with the bits of every byte turned round.

use super::judge::sum;
use super::trial::Trial;
use crate::judge::{Judge, Verdict};
use model::grainv1::keystream;
use tikhoplav::grainv1_vectors::{Vector, PUBLISHED};

pub fn on_model(judge: &mut Judge) -> Verdict {
    for vector in &PUBLISHED {
        let turned = vector.turned();
        let given = keystream(&turned.key, &turned.nonce, turned.keystream.len());
        judge.holds("the keystream", given == turned.keystream)?;
    }
    Ok(())
}

fn trial(judge: &mut Judge, vector: &Vector, message: Vec<u8>) -> Trial {
    let spare = judge.random.below(4);
    Trial {
        key: vector.key.to_vec(),
        nonce: vector.nonce.to_vec(),
        lent: judge.random.bytes(message.len() + spare),
        message,
    }
}

/// Messages up to the published length: zeros become the keystream, and any bytes its sum with them.
pub fn by_the_call(judge: &mut Judge) -> Verdict {
    for vector in PUBLISHED.iter().map(Vector::turned) {
        for length in 0..=vector.keystream.len() {
            let zeros = trial(judge, &vector, vec![0; length]);
            let expected = zeros.success(&vector.keystream[..length]);
            judge.expect_grainv1(&zeros, &expected)?;
            let message = judge.random.bytes(length);
            let any = trial(judge, &vector, message);
            let expected = any.success(&sum(&any.message, &vector.keystream));
            judge.expect_grainv1(&any, &expected)?;
        }
    }
    Ok(())
}

/// The second vector's bytes as they are published are another key and nonce to the call.
pub fn not_turned(judge: &mut Judge) -> Verdict {
    let vector = &PUBLISHED[1];
    let trial = trial(judge, vector, vec![0; vector.keystream.len()]);
    judge.accepts_grainv1(&trial)?;
    let written = trial.by_archive().out;
    let turned = vector.turned().keystream;
    for published in [vector.keystream, turned] {
        let other = !written.starts_with(&published);
        judge.holds("another keystream", other)?;
    }
    Ok(())
}
