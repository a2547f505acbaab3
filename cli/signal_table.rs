//! The signals of frames by their identifiers, a line of a file each.

use crate::decoded::decode;
use crate::definition::Definition;
use crate::failure::Failure;
use crate::notation::Identifier;
use crate::options::Options;
use crate::refusal;
use crate::streams::Source;
use tikhoplav::sizes::{FRAME_MESSAGE_MAX, IDENTIFIER_MAX};

const OPTION: &str = "--signals";
const COLUMNS: usize = 9;

/// The byte-order mark of UTF-8, which some editors begin a file with.
const MARK: &[u8] = b"\xef\xbb\xbf";

pub struct Listed {
    identifier: u32,
    line: usize,
    pub name: String,
    pub definition: Definition,
    pub unit: Option<String>,
}

pub struct Table(Vec<Listed>);

impl Table {
    /// What `--signals` names, if it is given.
    pub fn read(options: &Options) -> Result<Option<Table>, Failure> {
        let Some(path) = options.value(OPTION) else {
            return Ok(None);
        };
        let bytes = Source::file(OPTION, path)?.all()?;
        let lines = bytes.strip_prefix(MARK).unwrap_or(&bytes);
        let mut table = Table(Vec::new());
        for (line, number) in lines.split(|&byte| byte == b'\n').zip(1..) {
            let usage = |what| Failure::Usage(format!("{OPTION}: line {number}: {what}"));
            let text = plain(line).map_err(usage)?;
            if let Some(listed) = listed(text, number).map_err(usage)? {
                table.fresh(&listed).map_err(usage)?;
                judge(&listed)?;
                table.0.push(listed);
            }
        }
        Ok(Some(table))
    }

    /// The signals of an identifier, in the order of their lines.
    pub fn of(&self, identifier: u32) -> impl Iterator<Item = &Listed> {
        self.0
            .iter()
            .filter(move |listed| listed.identifier == identifier)
    }

    /// Its identifier has no signal of this name yet.
    fn fresh(&self, new: &Listed) -> Result<(), String> {
        match self.of(new.identifier).find(|old| old.name == new.name) {
            None => Ok(()),
            Some(old) => Err(format!(
                "{} has a signal '{}' already, in line {}",
                Identifier::extended(new.identifier),
                new.name,
                old.line
            )),
        }
    }
}

/// The text of a line, which may go to a terminal. The error says what is wrong with it.
fn plain(line: &[u8]) -> Result<&str, String> {
    let text = std::str::from_utf8(line).map_err(|_| "no UTF-8".to_string())?;
    let control = |c: &char| c.is_control() && !matches!(c, '\t' | '\r');
    match text.chars().find(control) {
        None => Ok(text),
        Some(c) => Err(format!("U+{:04X} is a control character", u32::from(c))),
    }
}

/// The signal of a line; none where it is blank or a comment. The error says what is wrong with it.
fn listed(text: &str, line: usize) -> Result<Option<Listed>, String> {
    let words: Vec<&str> = text.split_whitespace().collect();
    if words.first().is_none_or(|word| word.starts_with('#')) {
        return Ok(None);
    }
    let [identifier, name, start, width, sign, scale, offset, low, high, unit @ ..] = &words[..]
    else {
        return Err(columns(words.len()));
    };
    let definition = Definition::of(is_signed(sign)?, |name| {
        let given = match name {
            "start" => start,
            "width" => width,
            "scale" => scale,
            "offset" => offset,
            "low" => low,
            _ => high,
        };
        Ok(given.to_string())
    })?;
    Ok(Some(Listed {
        identifier: of_a_frame(identifier)?,
        line,
        name: name.to_string(),
        definition,
        unit: match unit {
            [] => None,
            [unit] => Some(unit.to_string()),
            _ => return Err(columns(words.len())),
        },
    }))
}

/// The number of an identifier that a frame can have.
fn of_a_frame(word: &str) -> Result<u32, String> {
    let identifier = Identifier::parse(word.as_bytes())?;
    if identifier.number > IDENTIFIER_MAX {
        return Err(refusal::too_large(&identifier));
    }
    Ok(identifier.number)
}

fn columns(count: usize) -> String {
    let more = COLUMNS + 1;
    format!("{count} columns, and must have {COLUMNS}, or {more} with a unit")
}

fn is_signed(word: &str) -> Result<bool, String> {
    match word {
        "signed" => Ok(true),
        "unsigned" => Ok(false),
        _ => Err(format!("'{word}' is neither signed nor unsigned")),
    }
}

/// Has the archive judge the signal in the longest message of a frame: what it refuses there, it
/// refuses in every frame.
fn judge(listed: &Listed) -> Result<(), Failure> {
    let longest = [0; FRAME_MESSAGE_MAX];
    let room = format!("the longest message of a frame has {}", 8 * longest.len());
    match decode(&listed.definition, &longest, &room) {
        Ok(_) => Ok(()),
        Err((number, why)) => {
            let line = listed.line;
            Err(Failure::Refusal(
                number,
                format!("{OPTION}: line {line}: {why}"),
            ))
        }
    }
}
