//! A second interpreter of FOQ tables, written from documents 01 and 02 alone.
//!
//! It is slow and plain on purpose. Its modules follow the order of document
//! 01: the program table, its meaning, access faults, calls and width, the
//! emission, the circuit, the refusals with their order, and the listing. Of
//! document 02 there is the page of a circuit (S-1), which is also read again,
//! the size of what is left (S-2), a third base of numbers, the published
//! circuit size (S-4) in the listing's first line, the inverse program (S-5),
//! for which programs are written as tables, and the order of bodies of equal
//! list length (S-6); a circuit can be listed without its table.
//! Words in quotation marks in the comments are the documents' own.

#![deny(clippy::unwrap_used, clippy::expect_used, clippy::panic)]

mod table;

mod calls;
mod circuit;
mod emission;
mod fault;
mod inverse;
mod listing;
mod meaning;
mod operations;
mod page;
mod writing;

pub mod refusal;

pub use calls::gate_bound;
pub use circuit::{
    circuit_bytes, circuit_run, read_circuit, Action, Block, Circuit, Control, Gate,
    LONGEST_CIRCUIT,
};
pub use emission::{emission, Emission, Tally};
pub use inverse::{inverse, inverse_program};
pub use listing::{circuit_list, listing};
pub use meaning::{holds, remaining};
pub use operations::{compile, plain_verdict, run, verdict, SHORTEST_WORKSPACE};
pub use page::{gates_on, page};
pub use table::{read_table, Condition, Number, Program, Statement};
pub use writing::table_bytes;
