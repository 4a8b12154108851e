//! The parts of `foq`, a command line for people: programs as text, circuits as
//! OpenQASM.
//!
//! Nothing here is proved, and nothing that is proved depends on it. What
//! decides is `libfoq.a`: verdict, run, compile and inverse see only a table's
//! bytes, and listings and pages are its own.
//!
//! - [`tree`] holds the tree of a program, [`bytes`] its table, [`text`] its text.
//! - [`qasm`] turns the listing of a circuit into OpenQASM.

#![deny(clippy::unwrap_used, clippy::expect_used, clippy::panic)]

pub mod bytes;
pub mod text;
pub mod tree;

pub mod qasm;
