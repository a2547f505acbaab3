//! Files, standard input and standard output.

use crate::failure::Failure;
use std::ffi::OsStr;
use std::fs::{self, File};
use std::io::{self, Cursor, ErrorKind, Read, Write};

/// How much is read at a time of what is read in pieces.
pub const PIECE: usize = 4096;

/// What is read, under the name that an error gives it.
pub struct Source {
    name: String,
    reader: Box<dyn Read>,
}

impl Source {
    /// The file that an option names.
    pub fn file(option: &str, path: &OsStr) -> Result<Source, Failure> {
        let name = format!("'{}'", path.display());
        match File::open(path) {
            Ok(file) => Ok(Source {
                name,
                reader: Box::new(file),
            }),
            Err(error) if error.kind() == ErrorKind::NotFound => {
                Err(Failure::Usage(format!("{option}: no file {name}")))
            }
            Err(error) => Err(cannot_read(&name, error)),
        }
    }

    pub fn stdin() -> Source {
        Source {
            name: "standard input".to_string(),
            reader: Box::new(io::stdin()),
        }
    }

    /// Bytes that are held already.
    pub fn held(bytes: Vec<u8>) -> Source {
        Source {
            name: "what is held".to_string(),
            reader: Box::new(Cursor::new(bytes)),
        }
    }

    /// The next bytes, as many as are asked for; fewer only where they end.
    pub fn piece(&mut self, len: usize) -> Result<Vec<u8>, Failure> {
        let mut piece = Vec::with_capacity(len);
        let read = (&mut self.reader).take(len as u64).read_to_end(&mut piece);
        match read {
            Ok(_) => Ok(piece),
            Err(error) => Err(cannot_read(&self.name, error)),
        }
    }

    pub fn all(mut self) -> Result<Vec<u8>, Failure> {
        let mut bytes = Vec::new();
        match self.reader.read_to_end(&mut bytes) {
            Ok(_) => Ok(bytes),
            Err(error) => Err(cannot_read(&self.name, error)),
        }
    }

    /// The bytes ended too soon.
    pub fn cut_short(&self) -> Failure {
        cannot_read(&self.name, ErrorKind::UnexpectedEof.into())
    }
}

fn cannot_read(name: &str, error: io::Error) -> Failure {
    Failure::Io(format!("cannot read {name}: {error}"))
}

pub fn write_file(path: &OsStr, bytes: &[u8]) -> Result<(), Failure> {
    fs::write(path, bytes)
        .map_err(|error| Failure::Io(format!("cannot write '{}': {error}", path.display())))
}

pub fn write_stdout(bytes: &[u8]) -> Result<(), Failure> {
    let mut stdout = io::stdout();
    stdout
        .write_all(bytes)
        .and_then(|()| stdout.flush())
        .map_err(|error| Failure::Io(format!("cannot write standard output: {error}")))
}
