//! How a command ends: with a status, or with a sentence for a person and a status.

use std::fmt::Display;
use std::io;
use std::process::ExitCode;

/// What a command did.
#[derive(Clone, Copy, Debug, PartialEq, Eq)]
pub enum Outcome {
    /// All of it.
    Complete,
    /// A part: something was lost or is damaged.
    Partial,
    /// The take has nothing that can be saved. What there is to say was said.
    Nothing,
}

/// Why it could not be done.
#[derive(Debug)]
pub enum Error {
    /// For a person.
    Sentence(String),
    /// The command was called wrongly.
    Usage(String),
    /// Whoever read the output went away. There is nobody to tell.
    BrokenPipe,
}

pub type Result<T> = std::result::Result<T, Error>;

impl Error {
    /// A file that can't be read.
    pub fn reading(name: impl Display, error: io::Error) -> Error {
        Error::Sentence(format!("{name} can't be read: {error}"))
    }

    /// A file that can't be written.
    pub fn writing(name: impl Display, error: io::Error) -> Error {
        match error.kind() {
            io::ErrorKind::BrokenPipe => Error::BrokenPipe,
            kind => {
                let why = match kind {
                    io::ErrorKind::StorageFull => "the disk is full".into(),
                    io::ErrorKind::QuotaExceeded => "the quota of the disk is used up".into(),
                    io::ErrorKind::FileTooLarge => "it may not get any longer".into(),
                    _ => error.to_string(),
                };
                Error::Sentence(format!("{name} can't be written: {why}"))
            }
        }
    }

    /// The same with more behind it.
    pub fn and(self, more: impl Display) -> Error {
        match self {
            Error::Sentence(text) => Error::Sentence(format!("{text}{more}")),
            Error::Usage(text) => Error::Usage(format!("{text}{more}")),
            Error::BrokenPipe => Error::BrokenPipe,
        }
    }

    /// Something else, in a sentence.
    pub fn sentence<T>(text: impl Into<String>) -> Result<T> {
        Err(Error::Sentence(text.into()))
    }
}

/// The status of the whole program.
pub fn status(outcome: &Result<Outcome>) -> ExitCode {
    ExitCode::from(match outcome {
        Ok(Outcome::Complete) => 0,
        Ok(Outcome::Partial) => 3,
        Ok(Outcome::Nothing) => 1,
        Err(Error::Sentence(_) | Error::BrokenPipe) => 1,
        Err(Error::Usage(_)) => 2,
    })
}
