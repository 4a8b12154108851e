//! The refusals of documents 01 and 02, by the names of `foq.h`.

use std::error::Error;
use std::fmt::{self, Display, Formatter};

/// A refusal's number.
#[derive(Clone, Copy, Debug, PartialEq, Eq, Hash)]
pub struct Refusal(u32);

/// A constant for each refusal, and all of them with their names and words.
macro_rules! refusals {
    ($($name:ident = $number:literal, $words:literal;)*) => {
        impl Refusal {
            $(#[doc = $words] pub const $name: Refusal = Refusal($number);)*

            /// Every refusal, with its name in `foq.h` behind `FOQ_`.
            pub const ALL: &'static [(&'static str, Refusal)] = &[$((stringify!($name), Refusal($number))),*];

            /// What the refusal says, in words.
            fn words(self) -> &'static str {
                match self.0 {
                    $($number => $words,)*
                    _ => "no refusal has this number",
                }
            }
        }
    };
}

refusals! {
    TABLE_STOPS = 1, "the table stops too soon";
    WRONG_EDITION = 2, "the table's edition is not 1";
    MANY_PROCEDURES = 3, "more than 16 procedures";
    WRONG_KIND = 4, "kind unknown, or condition and statement exchanged";
    WRONG_MAP = 5, "a map that the record's kind does not permit";
    WRONG_FIELD = 6, "a removal count that is not 1 to 8, a base that is not 0, 1 or 2, or a procedure that the table does not have";
    TOO_DEEP = 7, "a tree more than 32 records deep, or a 256th record";
    BYTES_LEFT = 8, "bytes left over behind the last body";
    WRONG_QUBITS = 9, "n is not 1 to 32";
    NO_REMOVAL = 10, "a recursive call without removal";
    TOO_WIDE = 11, "a body of width over 1: two recursive calls can follow one another in it";
    ACCESS_FAULT = 12, "a NOT or qcase on a position outside its list, or on a qubit that a qcase around it has closed";
    HIGH_BIT = 13, "a start word with a bit at n or above";
    NOT_WELL_FORMED = 14, "the circuit is not well formed";
    SHORT_WORKSPACE = 21, "a workspace shorter than 32,768 bytes";
    MANY_WIRES = 22, "a wire number above 255 would be taken";
    NO_ROOM = 23, "the header or the next gate would pass the end of the room, or of 65,536 bytes, or a text is shorter than its listing";
    SHORT_TABLE_ROOM = 24, "a room shorter than the table that is to be inverted";
}

impl Refusal {
    /// The number, as documents 01 and 02 have it.
    ///
    /// ```
    /// let refusal = foq::compile_to_vec(&[], 3).unwrap_err();
    /// assert_eq!(refusal, foq::Refusal::TABLE_STOPS);
    /// assert_eq!(refusal.number(), 1);
    /// assert_eq!(refusal.to_string(), "refusal 1: the table stops too soon");
    /// ```
    #[must_use]
    pub fn number(self) -> u32 {
        self.0
    }

    /// Success is number 0; any other number is a refusal.
    pub(crate) fn unless_success(number: u32) -> Result<(), Refusal> {
        match number {
            0 => Ok(()),
            _ => Err(Refusal(number)),
        }
    }
}

impl Display for Refusal {
    fn fmt(&self, formatter: &mut Formatter<'_>) -> fmt::Result {
        write!(formatter, "refusal {}: {}", self.0, self.words())
    }
}

impl Error for Refusal {}
