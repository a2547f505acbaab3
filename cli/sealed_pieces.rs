//! A sealed input in pieces.

use crate::failure::Failure;
use crate::inputs::{self, named};
use crate::options::Options;
use crate::streams::{Source, PIECE};
use tikhoplav::hex::Decoder;
use tikhoplav::sizes::{SEALED_MAX, TAG_SIZE};

pub struct Sealed {
    source: Source,
    hex: Option<Decoder>,
    len: usize,
    /// The last bytes so far, at most a tag's. They are the tag if the input ends behind them.
    kept_back: Vec<u8>,
}

impl Sealed {
    pub fn open(options: &Options) -> Result<Sealed, Failure> {
        Ok(Sealed {
            source: inputs::source(options)?,
            hex: options.has("--hex-in").then(Decoder::default),
            len: 0,
            kept_back: Vec::new(),
        })
    }

    /// The next piece of the ciphertext; none where the input has ended, or is known to be too long.
    pub fn ciphertext(&mut self) -> Result<Option<Vec<u8>>, Failure> {
        if self.len > SEALED_MAX {
            return Ok(None);
        }
        let Some(bytes) = self.read()? else {
            return Ok(None);
        };
        self.len += bytes.len();
        self.kept_back.extend(bytes);
        let ciphertext_len = self.kept_back.len().saturating_sub(TAG_SIZE);
        Ok(Some(self.kept_back.drain(..ciphertext_len).collect()))
    }

    /// The tag, where the input has ended. Of an input too short to have one it is all of it.
    pub fn tag(&self) -> &[u8] {
        &self.kept_back
    }

    /// Of hex, white space alone gives no bytes, and is not the end.
    fn read(&mut self) -> Result<Option<Vec<u8>>, Failure> {
        let piece = self.source.piece(PIECE)?;
        let ended = piece.is_empty();
        let bytes = match &mut self.hex {
            None => piece,
            Some(decoder) if ended => named("--hex-in", decoder.end()).map(|()| piece)?,
            Some(decoder) => named("--hex-in", decoder.decode(&piece))?,
        };
        Ok((!ended).then_some(bytes))
    }
}
