//! What a file holds: a table, or a text.

use crate::failure::Failure;
use foq_command::bytes::encode;
use foq_command::text::{parse, Error, Place};
use foq_command::tree::Program;
use std::ffi::OsStr;
use std::fs;
use std::path::PathBuf;

/// The program in a file.
pub enum Source {
    /// The bytes of a table, good or bad.
    Table(Vec<u8>),
    /// The tree of a text.
    Text(Program),
}

impl Source {
    /// Reads a file. It is a text where it starts with a printable character or
    /// white space, which no table does.
    pub fn read(file: &OsStr) -> Result<Source, Failure> {
        let contents = contents(file)?;
        let is_text = |first: &u8| !first.is_ascii_control() || first.is_ascii_whitespace();
        if !contents.first().is_some_and(is_text) {
            return Ok(Source::Table(contents));
        }
        let program = utf8(&contents).and_then(parse);
        program
            .map(Source::Text)
            .map_err(|error| Failure::Text(PathBuf::from(file), error))
    }

    /// The table: the file's, or the text's.
    pub fn table(self) -> Vec<u8> {
        match self {
            Source::Table(table) => table,
            Source::Text(program) => encode(&program),
        }
    }
}

/// The bytes of a file.
pub fn contents(file: &OsStr) -> Result<Vec<u8>, Failure> {
    fs::read(file).map_err(|error| Failure::File(PathBuf::from(file), error))
}

/// The characters of a text.
fn utf8(contents: &[u8]) -> Result<&str, Error> {
    str::from_utf8(contents).map_err(|error| {
        let good = String::from_utf8_lossy(&contents[..error.valid_up_to()]);
        Error {
            place: Place::START.behind(&good),
            message: "a byte that is not UTF-8".to_string(),
        }
    })
}
