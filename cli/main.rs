//! The lab's command-line tool over the archive.

mod ad_pieces;
mod algorithm;
mod candump;
mod capture;
mod capture_checks;
mod captured;
mod check;
mod crypt;
mod decoded;
mod definition;
mod failure;
mod frame;
mod frame_checks;
mod frame_job;
mod frame_signals;
mod grain128a_checks;
mod grainv1_checks;
mod inputs;
mod job;
mod json;
mod notation;
mod number;
mod opened;
mod options;
mod output;
mod parts;
mod real;
mod refusal;
mod sealed_pieces;
mod sealing;
mod selftest;
mod signal;
mod signal_checks;
mod signal_table;
mod stream_checks;
mod stream_job;
mod streams;

use failure::Failure;
use options::{Known, Options};
use std::ffi::OsString;
use std::process::ExitCode;
use tikhoplav::archive::Call;
use tikhoplav::sizes::{AD_MAX, FRAME_MESSAGE_MAX, GRAIN128A_TAG_BITS_MAX};
use tikhoplav::sizes::{CAPTURE_DEPTH_MAX, CAPTURE_ENTRIES_MAX, CAPTURE_MAX};
use tikhoplav::sizes::{GRAINV1_KEY_SIZE, GRAINV1_NONCE_SIZE};
use tikhoplav::sizes::{IDENTIFIER_MAX, MESSAGE_MAX, SEALED_MAX, SIGNAL_WIDTH_MAX};

const VERSION: &str = concat!("tikhoplav ", env!("TIKHOPLAV_VERSION"), "\n");

/// The text of `--help`, with the limits that it names.
fn help() -> String {
    format!(
        include_str!("help.txt"),
        AD_MAX = AD_MAX,
        MESSAGE_MAX = MESSAGE_MAX,
        SEALED_MAX = SEALED_MAX,
        IDENTIFIER_MAX = IDENTIFIER_MAX,
        FRAME_MESSAGE_MAX = FRAME_MESSAGE_MAX,
        TAG_BITS_MAX = GRAIN128A_TAG_BITS_MAX,
        V1_KEY_SIZE = GRAINV1_KEY_SIZE,
        V1_NONCE_SIZE = GRAINV1_NONCE_SIZE,
        CAPTURE_MAX = CAPTURE_MAX,
        ENTRIES_MAX = CAPTURE_ENTRIES_MAX,
        DEPTH_MAX = CAPTURE_DEPTH_MAX,
        TOO_DEEP = CAPTURE_DEPTH_MAX + 1,
        WIDTH_MAX = SIGNAL_WIDTH_MAX,
        START_MAX = u32::MAX,
        FRAME_BITS_LAST = 8 * FRAME_MESSAGE_MAX - 1,
        PIECE = streams::PIECE
    )
}

fn main() -> ExitCode {
    let arguments: Vec<OsString> = std::env::args_os().skip(1).collect();
    match run(&arguments) {
        Ok(()) => ExitCode::SUCCESS,
        Err(failure) => {
            eprintln!("{failure}");
            ExitCode::from(failure.status())
        }
    }
}

fn run(arguments: &[OsString]) -> Result<(), Failure> {
    let Some((command, rest)) = arguments.split_first() else {
        return Err(Failure::Usage("no command".to_string()));
    };
    match command.to_str() {
        Some("seal") => seal_or_open(Call::Seal, rest),
        Some("open") => seal_or_open(Call::Open, rest),
        Some("crypt") => with_options(&options::CRYPT, rest, crypt::run),
        Some("check") => with_options(&options::CHECK, rest, check::run),
        Some("frame") => frame(rest),
        Some("capture") => capture(rest),
        Some("signal") => with_options(&options::SIGNAL, rest, signal::run),
        Some("parts") => with_options(&options::PARTS, rest, parts::run),
        Some("selftest") => alone(rest).and_then(|()| selftest::run()),
        Some("--help" | "-h" | "help") => streams::write_stdout(help().as_bytes()),
        Some("--version" | "-V") => streams::write_stdout(VERSION.as_bytes()),
        _ => Err(Failure::Usage(format!(
            "unknown command '{}'",
            command.display()
        ))),
    }
}

fn seal_or_open(call: Call, arguments: &[OsString]) -> Result<(), Failure> {
    with_options(&options::SEAL_AND_OPEN, arguments, |options| {
        sealing::run(call, options)
    })
}

fn frame(arguments: &[OsString]) -> Result<(), Failure> {
    let Some((command, rest)) = arguments.split_first() else {
        return Err(Failure::Usage("frame: make or read is needed".to_string()));
    };
    match command.to_str() {
        Some("make") => with_options(&options::FRAME_MAKE, rest, frame::make),
        Some("read") => with_options(&options::FRAME_READ, rest, frame::read),
        Some("--help") => streams::write_stdout(help().as_bytes()),
        _ => Err(Failure::Usage(format!(
            "unknown command 'frame {}'",
            command.display()
        ))),
    }
}

fn capture(arguments: &[OsString]) -> Result<(), Failure> {
    let Some((command, rest)) = arguments.split_first() else {
        return Err(Failure::Usage(
            "capture: list or open is needed".to_string(),
        ));
    };
    match command.to_str() {
        Some("list") => with_options(&options::CAPTURE_LIST, rest, capture::list),
        Some("open") => with_options(&options::CAPTURE_OPEN, rest, capture::open),
        Some("--help") => streams::write_stdout(help().as_bytes()),
        _ => Err(Failure::Usage(format!(
            "unknown command 'capture {}'",
            command.display()
        ))),
    }
}

/// Runs a command on its options, or shows the help where they ask for it.
fn with_options(
    known: &Known,
    arguments: &[OsString],
    command: impl Fn(&Options) -> Result<(), Failure>,
) -> Result<(), Failure> {
    let options = Options::parse(known, arguments)?;
    if options.has("--help") {
        return streams::write_stdout(help().as_bytes());
    }
    command(&options)
}

fn alone(rest: &[OsString]) -> Result<(), Failure> {
    match rest.first() {
        None => Ok(()),
        Some(extra) => Err(Failure::Usage(format!(
            "unexpected argument '{}'",
            extra.display()
        ))),
    }
}
