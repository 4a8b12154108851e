//! The tokens of a text.

use super::{Error, Place};
use std::fmt::{self, Display, Formatter};

/// A token.
#[derive(Clone, Copy, Debug, PartialEq, Eq)]
pub enum Token<'a> {
    /// A sign or a word of the language, in its ASCII form.
    Mark(&'a str),
    /// The name of a procedure.
    Name(&'a str),
    /// Digits as they stand: a number, or the label of a branch.
    Digits(&'a str),
    /// The end of the text.
    End,
}

impl Display for Token<'_> {
    fn fmt(&self, formatter: &mut Formatter<'_>) -> fmt::Result {
        match self {
            Token::Mark(said) | Token::Name(said) | Token::Digits(said) => {
                write!(formatter, "`{said}`")
            }
            Token::End => write!(formatter, "the end of the text"),
        }
    }
}

/// The words of the language, which are no names.
const WORDS: [&str; 14] = [
    "decl", "skip", "call", "if", "then", "else", "qcase", "of", "NOT", "q", "nil", "and", "or",
    "not",
];

/// The signs in ASCII; one that begins another stands behind it.
const SIGNS: [&str; 17] = [
    "::", "->", "*=", ">=", ">", "=", "(", ")", "[", "]", "{", "}", ",", ";", "|", "+", "-",
];

/// The papers' signs, each with its ASCII form.
const UNICODE_SIGNS: [(char, &str); 7] = [
    ('⊖', "-"),
    ('−', "-"),
    ('→', "->"),
    ('≥', ">="),
    ('∧', "and"),
    ('∨', "or"),
    ('¬', "not"),
];

/// The macron of the papers' q̄.
const MACRON: char = '\u{304}';

/// The tokens of a text with their places; the last one is its end.
pub fn tokens(text: &str) -> Result<Vec<(Place, Token<'_>)>, Error> {
    let mut rest = Rest {
        text,
        place: Place::START,
    };
    let mut tokens = Vec::new();
    while tokens.last().is_none_or(|&(_, token)| token != Token::End) {
        rest.pass_blanks()?;
        tokens.push((rest.place, rest.token()?));
    }
    Ok(tokens)
}

/// The rest of a text and the place where it starts.
struct Rest<'a> {
    text: &'a str,
    place: Place,
}

impl<'a> Rest<'a> {
    /// Passes so many bytes.
    fn pass(&mut self, length: usize) -> &'a str {
        let (passed, rest) = self.text.split_at(length);
        self.text = rest;
        self.place = self.place.behind(passed);
        passed
    }

    /// Passes all characters of a class.
    fn pass_all(&mut self, class: fn(char) -> bool) -> &'a str {
        let outside = |character| !class(character);
        self.pass(self.text.find(outside).unwrap_or(self.text.len()))
    }

    /// Passes white space and comments.
    fn pass_blanks(&mut self) -> Result<(), Error> {
        self.pass_all(char::is_whitespace);
        while let Some(comment) = self.text.strip_prefix("/*") {
            let Some(length) = comment.find("*/") else {
                return Err(self.wrong("a comment without its `*/`"));
            };
            self.pass("/*".len() + length + "*/".len());
            self.pass_all(char::is_whitespace);
        }
        Ok(())
    }

    /// The next token.
    fn token(&mut self) -> Result<Token<'a>, Error> {
        let Some(first) = self.text.chars().next() else {
            return Ok(Token::End);
        };
        if first.is_ascii_digit() {
            return Ok(Token::Digits(
                self.pass_all(|character| character.is_ascii_digit()),
            ));
        }
        if in_name(first) {
            return Ok(self.word());
        }
        if let Some(sign) = SIGNS.into_iter().find(|sign| self.text.starts_with(sign)) {
            self.pass(sign.len());
            return Ok(Token::Mark(sign));
        }
        match UNICODE_SIGNS.into_iter().find(|(sign, _)| *sign == first) {
            Some((sign, ascii)) => {
                self.pass(sign.len_utf8());
                Ok(Token::Mark(ascii))
            }
            None => Err(self.wrong(&format!("`{}` says nothing here", first.escape_debug()))),
        }
    }

    /// A name or a word of the language.
    fn word(&mut self) -> Token<'a> {
        let word = self.pass_all(in_name);
        if word == "q" && self.text.starts_with(MACRON) {
            self.pass(MACRON.len_utf8());
        }
        if WORDS.contains(&word) {
            Token::Mark(word)
        } else {
            Token::Name(word)
        }
    }

    /// An error at this place.
    fn wrong(&self, message: &str) -> Error {
        Error {
            place: self.place,
            message: message.to_string(),
        }
    }
}

/// Whether names hold this character; they do not begin with an ASCII digit.
fn in_name(character: char) -> bool {
    character.is_alphanumeric() || character == '_'
}
