//! The AD in pieces.

use crate::failure::Failure;
use crate::inputs::Given;
use crate::options::Options;
use crate::streams::{Source, PIECE};
use std::ffi::OsStr;
use std::fs;
use tikhoplav::sizes::AD_MAX;

/// A stream is told the length before the first piece.
pub struct Ad {
    pub len: usize,
    taken: usize,
    source: Source,
}

impl Ad {
    pub fn open(options: &Options) -> Result<Ad, Failure> {
        match Given::by(options, "--ad", "--ad-file")? {
            Some(Given::Bytes(bytes)) => Ok(Ad::held(bytes)),
            Some(Given::File(path)) => Ad::file("--ad-file", path),
            None => Ok(Ad::held(Vec::new())),
        }
    }

    fn held(bytes: Vec<u8>) -> Ad {
        Ad::of(bytes.len(), Source::held(bytes))
    }

    fn of(len: usize, source: Source) -> Ad {
        Ad {
            len,
            taken: 0,
            source,
        }
    }

    /// A regular file is read twice, since its metadata may say another length (in /proc and /sys
    /// it does). Anything else can be read once only, and is held. No more is read than shows that
    /// it is too long.
    fn file(option: &str, path: &OsStr) -> Result<Ad, Failure> {
        let mut source = Source::file(option, path)?;
        if !fs::metadata(path).is_ok_and(|metadata| metadata.is_file()) {
            return Ok(Ad::held(source.piece(AD_MAX + 1)?));
        }
        Ok(Ad::of(length(source)?, Source::file(option, path)?))
    }

    /// The next piece; none where all is taken.
    pub fn piece(&mut self) -> Result<Option<Vec<u8>>, Failure> {
        let left = self.len - self.taken;
        if left == 0 {
            return Ok(None);
        }
        let piece = self.source.piece(left.min(PIECE))?;
        if piece.is_empty() {
            return Err(self.source.cut_short());
        }
        self.taken += piece.len();
        Ok(Some(piece))
    }
}

/// A length over the limit may be less than the true one.
fn length(mut source: Source) -> Result<usize, Failure> {
    let mut length = 0;
    while length <= AD_MAX {
        let piece = source.piece(PIECE)?;
        if piece.is_empty() {
            break;
        }
        length += piece.len();
    }
    Ok(length)
}
