//! What the commands are given, read from where the options say.

use crate::failure::Failure;
use crate::number::Number;
use crate::options::Options;
use crate::streams::Source;
use std::ffi::OsStr;
use tikhoplav::hex;
use tikhoplav::sizes::{GRAIN128A_TAG_BITS_MAX, NONCE_SIZE};

/// Key and nonce, which every cipher takes.
pub struct Secrets {
    pub key: Vec<u8>,
    pub nonce: Vec<u8>,
}

impl Secrets {
    pub fn read(options: &Options) -> Result<Secrets, Failure> {
        Ok(Secrets {
            key: key(options)?,
            nonce: required(options, "--nonce", "--nonce-file")?,
        })
    }
}

/// Grain-128AEAD as it is asked for.
pub struct Cipher {
    pub edition: Number,
    pub secrets: Secrets,
}

impl Cipher {
    pub fn read(options: &Options) -> Result<Cipher, Failure> {
        Ok(Cipher {
            edition: edition(options)?,
            secrets: Secrets::read(options)?,
        })
    }

    /// For frames that bring their nonces along; it is zeros until one does.
    pub fn without_nonce(options: &Options) -> Result<Cipher, Failure> {
        Ok(Cipher {
            edition: edition(options)?,
            secrets: Secrets {
                key: key(options)?,
                nonce: vec![0; NONCE_SIZE],
            },
        })
    }
}

fn edition(options: &Options) -> Result<Number, Failure> {
    Number::read(options, "--edition", 1)
}

fn key(options: &Options) -> Result<Vec<u8>, Failure> {
    required(options, "--key", "--key-file")
}

/// What `seal` and `open` are given with Grain-128AEAD.
pub struct Inputs {
    pub cipher: Cipher,
    pub ad: Vec<u8>,
    pub data: Vec<u8>,
}

impl Inputs {
    pub fn read(options: &Options) -> Result<Inputs, Failure> {
        Ok(Inputs {
            cipher: Cipher::read(options)?,
            ad: either(options, "--ad", "--ad-file")?.unwrap_or_default(),
            data: data(options)?,
        })
    }
}

/// What `seal` and `open` are given with Grain-128a.
pub struct Tagged {
    pub secrets: Secrets,
    pub tag_bits: Number,
    pub data: Vec<u8>,
}

impl Tagged {
    pub fn read(options: &Options) -> Result<Tagged, Failure> {
        Ok(Tagged {
            tag_bits: Number::read(options, "--tag-bits", GRAIN128A_TAG_BITS_MAX)?,
            secrets: Secrets::read(options)?,
            data: data(options)?,
        })
    }
}

fn required(options: &Options, as_hex: &str, as_file: &str) -> Result<Vec<u8>, Failure> {
    either(options, as_hex, as_file)?
        .ok_or_else(|| Failure::Usage(format!("{as_hex} or {as_file} is needed")))
}

fn either(options: &Options, as_hex: &str, as_file: &str) -> Result<Option<Vec<u8>>, Failure> {
    match Given::by(options, as_hex, as_file)? {
        Some(Given::Bytes(bytes)) => Ok(Some(bytes)),
        Some(Given::File(path)) => Source::file(as_file, path)?.all().map(Some),
        None => Ok(None),
    }
}

/// Bytes given in hex, or as a file that is not read yet.
pub enum Given<'a> {
    Bytes(Vec<u8>),
    File(&'a OsStr),
}

impl Given<'_> {
    pub fn by<'a>(
        options: &'a Options,
        as_hex: &str,
        as_file: &str,
    ) -> Result<Option<Given<'a>>, Failure> {
        match (options.value(as_hex), options.value(as_file)) {
            (Some(_), Some(_)) => Err(Failure::Usage(format!(
                "{as_hex} and {as_file} exclude each other"
            ))),
            (Some(text), None) => {
                let bytes = hex::decode(text.as_encoded_bytes());
                Ok(Some(Given::Bytes(named(as_hex, bytes)?)))
            }
            (None, Some(path)) => Ok(Some(Given::File(path))),
            (None, None) => Ok(None),
        }
    }
}

/// What `--in` or standard input holds, as bytes or in hex.
pub fn data(options: &Options) -> Result<Vec<u8>, Failure> {
    all(options, source(options)?)
}

/// What FILE holds, as bytes or in hex.
pub fn file(options: &Options) -> Result<Vec<u8>, Failure> {
    let source = match options.file() {
        None => {
            return Err(Failure::Usage(
                "FILE is needed, or - for standard input".to_string(),
            ))
        }
        Some(path) if path != "-" => Source::file("FILE", path)?,
        Some(_) => Source::stdin(),
    };
    all(options, source)
}

fn all(options: &Options, source: Source) -> Result<Vec<u8>, Failure> {
    let bytes = source.all()?;
    if options.has("--hex-in") {
        named("--hex-in", hex::decode(&bytes))
    } else {
        Ok(bytes)
    }
}

/// `--in` or standard input.
pub fn source(options: &Options) -> Result<Source, Failure> {
    match options.value("--in") {
        Some(path) if path != "-" => Source::file("--in", path),
        _ => Ok(Source::stdin()),
    }
}

/// Wrong hex is wrong usage of the option that has it.
pub fn named<T>(option: &str, decoded: Result<T, String>) -> Result<T, Failure> {
    decoded.map_err(|what| Failure::Usage(format!("{option}: {what}")))
}
