//! How a command fails, in words and as an exit status.

use foq::Refusal;
use foq_command::text;
use std::fmt::{self, Display, Formatter};
use std::io;
use std::path::PathBuf;
use std::process::ExitCode;

/// Why a command fails.
#[derive(Debug)]
pub enum Failure {
    /// The arguments are wrong, in these words.
    Usage(String),
    /// A file cannot be read or written.
    File(PathBuf, io::Error),
    /// A file holds no good text.
    Text(PathBuf, text::Error),
    /// What a file holds is refused.
    Refused(PathBuf, Refusal),
}

impl Failure {
    /// The exit status: 1 for a refusal, 2 for all else.
    pub fn status(&self) -> ExitCode {
        match self {
            Failure::Refused(..) => ExitCode::from(1),
            _ => ExitCode::from(2),
        }
    }
}

impl Display for Failure {
    fn fmt(&self, formatter: &mut Formatter<'_>) -> fmt::Result {
        match self {
            Failure::Usage(words) => write!(formatter, "{words}; `foq --help` says more"),
            Failure::File(file, error) => write!(formatter, "{}: {error}", file.display()),
            Failure::Text(file, error) => write!(formatter, "{}: {error}", file.display()),
            Failure::Refused(file, refusal) => write!(formatter, "{}: {refusal}", file.display()),
        }
    }
}
