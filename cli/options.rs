//! The options of the commands.

use crate::failure::Failure;
use std::collections::{BTreeMap, BTreeSet};
use std::ffi::{OsStr, OsString};
use std::os::unix::ffi::OsStrExt;

/// The options that a command knows.
pub struct Known {
    with_value: &'static [&'static [&'static str]],
    alone: &'static [&'static str],
    /// Those of other commands, and why this one has none.
    elsewhere: &'static [Reason],
    /// Whether it takes FILE, which is no option.
    file: bool,
}

/// An option, and why it can't be given.
type Reason = (&'static str, &'static str);

const SECRETS: &[&str] = &["--key", "--key-file", "--nonce", "--nonce-file"];

pub const SEAL_AND_OPEN: Known = Known {
    with_value: &[
        SECRETS,
        &["--cipher", "--edition", "--tag-bits", "--ad", "--ad-file"],
        &["--in", "--out"],
    ],
    alone: &["--hex-in", "--hex-out", "--help"],
    elsewhere: &[],
    file: false,
};

pub const CRYPT: Known = Known {
    with_value: &[SECRETS, &["--cipher", "--in", "--out"]],
    alone: &["--hex-in", "--hex-out", "--help"],
    elsewhere: &[
        ("--edition", "no cipher of crypt has editions"),
        ("--ad", "crypt authenticates nothing"),
        ("--ad-file", "crypt authenticates nothing"),
        ("--tag-bits", "crypt makes no tag"),
    ],
    file: false,
};

const CHECK_NO_OTHER: &str = "check is for grain-128aead alone";

pub const CHECK: Known = Known {
    with_value: &[SECRETS, &["--edition", "--ad", "--ad-file", "--in"]],
    alone: &["--hex-in", "--help"],
    elsewhere: &[("--cipher", CHECK_NO_OTHER), ("--tag-bits", CHECK_NO_OTHER)],
    file: false,
};

const FRAMES_ALONE: &str = "frames are for grain-128aead alone";

const FRAMES_NO_OTHER: &[Reason] = &[("--cipher", FRAMES_ALONE), ("--tag-bits", FRAMES_ALONE)];

pub const FRAME_MAKE: Known = Known {
    with_value: &[SECRETS, &["--edition", "--id", "--flags", "--in", "--out"]],
    alone: &["--hex-in", "--help"],
    elsewhere: FRAMES_NO_OTHER,
    file: false,
};

pub const FRAME_READ: Known = Known {
    with_value: &[SECRETS, &["--edition", "--in", "--out"]],
    alone: &["--hex-out", "--help"],
    elsewhere: FRAMES_NO_OTHER,
    file: false,
};

const PARTS_NO_OTHER: &str = "parts is for grain-128aead alone, whose tags have 8 bytes";

pub const PARTS: Known = Known {
    with_value: &[&["--in"]],
    alone: &["--hex-in", "--help"],
    elsewhere: &[("--cipher", PARTS_NO_OTHER), ("--tag-bits", PARTS_NO_OTHER)],
    file: false,
};

pub const CAPTURE_LIST: Known = Known {
    with_value: &[],
    alone: &["--json", "--hex-in", "--help"],
    elsewhere: &[("--signals", "capture list opens no frame")],
    file: true,
};

const OWN_NONCES: &str = "each frame of a capture has its own nonce";

pub const CAPTURE_OPEN: Known = Known {
    with_value: &[&["--key", "--key-file", "--edition", "--signals"]],
    alone: &["--json", "--hex-in", "--help"],
    elsewhere: &[
        ("--nonce", OWN_NONCES),
        ("--nonce-file", OWN_NONCES),
        ("--cipher", FRAMES_ALONE),
        ("--tag-bits", FRAMES_ALONE),
    ],
    file: true,
};

const NO_KEY: &str = "signal takes a message that is opened already";

pub const SIGNAL: Known = Known {
    with_value: &[
        &["--start", "--width", "--scale", "--offset"],
        &["--low", "--high", "--in"],
    ],
    alone: &["--signed", "--json", "--hex-in", "--help"],
    elsewhere: &[
        ("--key", NO_KEY),
        ("--key-file", NO_KEY),
        ("--nonce", NO_KEY),
        ("--nonce-file", NO_KEY),
    ],
    file: false,
};

#[derive(Default)]
pub struct Options {
    values: BTreeMap<&'static str, OsString>,
    switches: BTreeSet<&'static str>,
    file: Option<OsString>,
}

impl Options {
    /// Reads `--name value`, `--name=value`, `--name` and FILE, each at most once.
    pub fn parse(known: &Known, arguments: &[OsString]) -> Result<Options, Failure> {
        let mut options = Options::default();
        let mut rest = arguments.iter();
        while let Some(argument) = rest.next() {
            let (name, attached) = split(argument);
            let fresh = if let Some(switch) = find(known.alone, name) {
                if attached.is_some() {
                    return usage(format!("{switch} takes no value"));
                }
                options.switches.insert(switch)
            } else if let Some(option) = known.with_value.iter().find_map(|some| find(some, name)) {
                let value = attached.or_else(|| rest.next().map(OsString::as_os_str));
                let value = present(option, value, attached.is_some())?;
                options.values.insert(option, value.to_owned()).is_none()
            } else if known.file && options.file.is_none() && is_file(argument) {
                options.file = Some(argument.clone());
                true
            } else {
                let value = attached.or_else(|| rest.next().map(OsString::as_os_str));
                return usage(unknown(known, name, value));
            };
            if !fresh {
                return usage(format!("{} is given twice", name.display()));
            }
        }
        Ok(options)
    }

    pub fn has(&self, switch: &str) -> bool {
        self.switches.contains(switch)
    }

    pub fn value(&self, name: &str) -> Option<&OsStr> {
        self.values.get(name).map(OsString::as_os_str)
    }

    pub fn file(&self) -> Option<&OsStr> {
        self.file.as_deref()
    }

    /// None of these is given.
    pub fn exclude(&self, reasons: &[Reason]) -> Result<(), Failure> {
        match reasons.iter().find(|(name, _)| self.value(name).is_some()) {
            Some((name, why)) => usage(format!("{name}: {why}")),
            None => Ok(()),
        }
    }
}

/// A name and the value that stands behind its `=`.
fn split(argument: &OsStr) -> (&OsStr, Option<&OsStr>) {
    let bytes = argument.as_bytes();
    match bytes.iter().position(|&byte| byte == b'=') {
        Some(at) if bytes.starts_with(b"--") => (
            OsStr::from_bytes(&bytes[..at]),
            Some(OsStr::from_bytes(&bytes[at + 1..])),
        ),
        _ => (argument, None),
    }
}

/// No option: `-`, or a name that begins otherwise.
fn is_file(argument: &OsStr) -> bool {
    argument == "-" || !argument.as_bytes().starts_with(b"-")
}

fn find(names: &[&'static str], name: &OsStr) -> Option<&'static str> {
    names.iter().copied().find(|&known| name == known)
}

/// The value of an option. One that looks like an option must be attached with `=`.
fn present<'a>(name: &str, value: Option<&'a OsStr>, attached: bool) -> Result<&'a OsStr, Failure> {
    match value {
        Some(value) if attached || !value.as_bytes().starts_with(b"--") => Ok(value),
        _ => usage(format!("{name} has no value")),
    }
}

fn unknown(known: &Known, name: &OsStr, value: Option<&OsStr>) -> String {
    if let Some((name, why)) = known.elsewhere.iter().find(|(option, _)| name == *option) {
        return match (*name, value) {
            ("--cipher", Some(cipher)) if cipher == "grain-v1" => {
                format!("{name}: {why}; grain-v1 has no tag")
            }
            _ => format!("{name}: {why}"),
        };
    }
    let kind = if is_file(name) {
        "unexpected argument"
    } else {
        "unknown option"
    };
    format!("{kind} '{}'", name.display())
}

fn usage<T>(what: String) -> Result<T, Failure> {
    Err(Failure::Usage(what))
}
