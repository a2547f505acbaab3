//! `tikhoplav capture list` and `tikhoplav capture open`.

use crate::captured::{self, Captured};
use crate::failure::Failure;
use crate::inputs::{self, Cipher};
use crate::json::Value;
use crate::opened::{self, Opened};
use crate::options::Options;
use crate::signal_table::Table;
use crate::streams;

/// Prints the frames, a line each, or nothing where the capture is refused.
pub fn list(options: &Options) -> Result<(), Failure> {
    let capture = inputs::file(options)?;
    let frames = captured::frames(&capture)?;
    let text = if options.has("--json") {
        document(vec![
            list_of(&frames, Captured::object),
            ("count", Value::Number(frames.len())),
        ])
    } else {
        frames.iter().map(Captured::line).collect()
    };
    streams::write_stdout(text.as_bytes())
}

/// Opens every frame and prints all of them, a line each, with their signals where a table of these
/// is given; the first refusal of a frame or of a signal is that of the command. Nothing is printed
/// where a line of the table, edition, key or capture are refused.
pub fn open(options: &Options) -> Result<(), Failure> {
    let mut cipher = Cipher::without_nonce(options)?;
    let capture = inputs::file(options)?;
    let table = Table::read(options)?;
    opened::judge(&cipher)?;
    let frames = captured::frames(&capture)?;
    let results: Vec<Opened> = frames
        .iter()
        .map(|frame| opened::open(&mut cipher, frame, table.as_ref()))
        .collect();
    streams::write_stdout(report(options, &results).as_bytes())?;
    match results.iter().find_map(Opened::refusal) {
        None => Ok(()),
        Some(refusal) => Err(refusal),
    }
}

/// All frames, and the counts of them, and of signals where a table of these is given.
fn report(options: &Options, results: &[Opened]) -> String {
    let total = results.len();
    let opened = results.iter().filter(|result| result.is_opened()).count();
    let refused = total - opened;
    let signals = options.value("--signals").map(|_| count_signals(results));
    if options.has("--json") {
        let mut members = vec![
            list_of(results, Opened::object),
            ("count", Value::Number(total)),
            ("opened", Value::Number(opened)),
            ("refused", Value::Number(refused)),
        ];
        if let Some((signals, refused)) = signals {
            members.push(("signals", Value::Number(signals)));
            members.push(("refused_signals", Value::Number(refused)));
        }
        return document(members);
    }
    let lines: String = results.iter().map(Opened::lines).collect();
    let frames = plural(total, "frame");
    let signals = signals.map_or(String::new(), |(signals, refused)| {
        format!("; {}, {refused} refused", plural(signals, "signal"))
    });
    format!("{lines}{frames}, {opened} opened, {refused} refused{signals}\n")
}

/// All of them, and the refused ones.
fn count_signals(results: &[Opened]) -> (usize, usize) {
    let signals = || results.iter().flat_map(Opened::signals);
    let refused = signals().filter(|signal| signal.refusal().is_some());
    (signals().count(), refused.count())
}

/// A count in words.
fn plural(count: usize, what: &str) -> String {
    match count {
        1 => format!("1 {what}"),
        _ => format!("{count} {what}s"),
    }
}

fn list_of<T>(frames: &[T], object: impl Fn(&T) -> Value) -> (&'static str, Value) {
    ("frames", Value::List(frames.iter().map(object).collect()))
}

fn document(members: Vec<(&'static str, Value)>) -> String {
    format!("{}\n", Value::Object(members))
}
