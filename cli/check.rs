//! `tikhoplav check`.

use crate::ad_pieces::Ad;
use crate::failure::{accepted, Failure};
use crate::inputs::Cipher;
use crate::options::Options;
use crate::refusal;
use crate::sealed_pieces::Sealed;
use tikhoplav::pieces::{self, Kind};
use tikhoplav::sizes::STATE_SIZE;

/// A checking stream, and the answer of its last call. After a refusal no call is made.
struct Stream {
    state: [u8; STATE_SIZE],
    answer: i64,
}

impl Stream {
    fn call(&mut self, call: impl FnOnce(&mut [u8]) -> i64) {
        if self.answer >= 0 {
            self.answer = call(&mut self.state);
        }
    }
}

/// Takes AD and sealed input in pieces, and writes nothing. The input is read on behind a refusal:
/// wrong hex and a failure to read come first, as they do for `open`. Only of an input that is too
/// long the rest is not read.
pub fn run(options: &Options) -> Result<(), Failure> {
    let cipher = Cipher::read(options)?;
    let mut ad = Ad::open(options)?;
    let mut sealed = Sealed::open(options)?;
    let mut stream = Stream {
        state: [0; STATE_SIZE],
        answer: 0,
    };
    let edition = cipher.edition.value();
    stream.call(|state| {
        Kind::Checking.begin(
            edition,
            state,
            &cipher.secrets.key,
            &cipher.secrets.nonce,
            ad.len,
        )
    });
    while let Some(piece) = ad.piece()? {
        stream.call(|state| Kind::Checking.ad(state, &piece));
    }
    while let Some(piece) = sealed.ciphertext()? {
        stream.call(|state| pieces::ciphertext(state, &piece));
    }
    stream.call(|state| pieces::checking_finish(state, sealed.tag()));
    let sentence = |number| refusal::of_checking(&cipher, ad.len, sealed.tag(), number);
    accepted(stream.answer, sentence).map(|_clocks| ())
}
