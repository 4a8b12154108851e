//! What the operations are called with.

use std::fmt::{self, Display, Formatter};

/// A table or a circuit, with the numbers that go beside it.
#[derive(Clone, Debug, PartialEq, Eq)]
pub enum Input {
    /// For verdict, run, compile, inverse and the listing program; its circuit
    /// for all others.
    Table(Table),
    /// For the circuit reader, the circuit run, the listing and the page.
    Circuit(Circuit),
}

/// A table and its numbers.
#[derive(Clone, Debug, PartialEq, Eq)]
pub struct Table {
    /// The table.
    pub bytes: Vec<u8>,
    /// The number of qubits.
    pub n: u32,
    /// The start word.
    pub word: u64,
    /// The length of a room.
    pub room: usize,
    /// The length of the workspace.
    pub workspace: usize,
}

/// A circuit and its start word.
#[derive(Clone, Debug, PartialEq, Eq)]
pub struct Circuit {
    /// The circuit.
    pub bytes: Vec<u8>,
    /// The start word.
    pub word: u64,
}

impl Input {
    /// The bytes of the table or circuit.
    #[must_use]
    pub fn bytes(&self) -> &[u8] {
        match self {
            Input::Table(table) => &table.bytes,
            Input::Circuit(circuit) => &circuit.bytes,
        }
    }
}

impl Display for Input {
    fn fmt(&self, formatter: &mut Formatter<'_>) -> fmt::Result {
        match self {
            Input::Table(table) => {
                let Table { n, word, room, .. } = table;
                let workspace = table.workspace;
                write!(formatter, "n {n}, word {word:#x}, ")?;
                write!(formatter, "room {room}, workspace {workspace}, table")?;
            }
            Input::Circuit(Circuit { word, .. }) => {
                write!(formatter, "word {word:#x}, circuit")?;
            }
        }
        let mut bytes = self.bytes().iter();
        bytes.try_for_each(|byte| write!(formatter, " {byte:02x}"))
    }
}
