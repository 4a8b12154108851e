//! FOQ texts in the papers' syntax, as `docs/TEXT.md` has it.

mod parse;
mod print;
mod tokens;

pub use parse::parse;
pub use print::print;

use std::error;
use std::fmt::{self, Display, Formatter};

/// A place in a text; lines and columns count from 1, columns in characters.
#[derive(Clone, Copy, Debug, PartialEq, Eq)]
pub struct Place {
    /// The line.
    pub line: usize,
    /// The column.
    pub column: usize,
}

impl Place {
    /// Where a text starts.
    pub const START: Place = Place { line: 1, column: 1 };

    /// The place behind characters that start here.
    #[must_use]
    pub fn behind(self, passed: &str) -> Place {
        passed
            .chars()
            .fold(self, |place, character| match character {
                '\n' => Place {
                    line: place.line + 1,
                    column: 1,
                },
                _ => Place {
                    column: place.column + 1,
                    ..place
                },
            })
    }
}

/// What is wrong with a text, and where.
#[derive(Clone, Debug, PartialEq, Eq)]
pub struct Error {
    /// Where.
    pub place: Place,
    /// What is wrong; mostly what was expected there and what was found.
    pub message: String,
}

impl Display for Error {
    fn fmt(&self, formatter: &mut Formatter<'_>) -> fmt::Result {
        let Place { line, column } = self.place;
        write!(formatter, "line {line}, column {column}: {}", self.message)
    }
}

impl error::Error for Error {}
