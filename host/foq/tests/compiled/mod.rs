//! Compile, asked of the product and of the second interpreter, and what the
//! circuit does. Room and workspace are lent dirty: the workspace must come back
//! as zeros, the room with the circuit in front and its rest as it was.

// Each test uses a part of this.
#![allow(dead_code)]

use crate::counts::{count, Counts};
use crate::lent::Workspace;
use crate::room::Room;
use crate::steps::count_steps;
use foq::border;
use foq_expected::answer;
use foq_reference::{
    compile, emission, gate_bound, read_table, Tally, LONGEST_CIRCUIT, SHORTEST_WORKSPACE,
};

/// The circuit or the refusal of both, with a room and a workspace of these
/// lengths.
pub fn compile_of_both(
    (room, workspace): (&mut Room, &mut Workspace),
    table: &[u8],
    n: u32,
    (room_length, workspace_length): (usize, usize),
) -> Result<Vec<u8>, u32> {
    let expected = compile(table, n, room_length, workspace_length);
    let length = expected.as_ref().map(|circuit| circuit.len() as u64);
    let written = expected.as_deref().unwrap_or(&[]);
    room.lend(room_length, written, |lent| {
        let given = workspace.lend(workspace_length, |space| {
            border::compile(table, n, lent, space)
        });
        assert_eq!(
            given,
            answer(length.map_err(|number| *number)),
            "n = {n}, {room_length} and {workspace_length} lent, {table:02x?}"
        );
    });
    expected
}

/// Asks both, with workspaces that are just long enough and a room that always
/// is.
pub struct Both {
    pub workspace: Workspace,
    pub room: Room,
}

impl Both {
    pub fn new() -> Both {
        Both {
            workspace: Workspace::up_to(40_000),
            room: Room::up_to(LONGEST_CIRCUIT),
        }
    }

    pub fn circuit(&mut self, table: &[u8], n: u32) -> Result<Vec<u8>, u32> {
        let lent = (&mut self.room, &mut self.workspace);
        compile_of_both(lent, table, n, (LONGEST_CIRCUIT, SHORTEST_WORKSPACE))
    }

    /// The circuit, where there is one; its number is counted.
    pub fn counted(
        &mut self,
        table: &[u8],
        n: u32,
        numbers: &mut Counts<u32>,
    ) -> Option<Vec<u8>> {
        let given = self.circuit(table, n);
        let number = given.as_ref().err().copied().unwrap_or(0);
        count(numbers, number, true);
        given.ok()
    }
}

/// Runs an accepted table and its circuit from each word: the data wires hold
/// the end word, and every other bit is zero. Says whether a word is changed,
/// and how many there are.
pub fn end_alike(
    table: &[u8],
    n: u32,
    circuit: &[u8],
    words: impl IntoIterator<Item = u64>,
) -> (bool, usize) {
    let workspace = &mut vec![0; SHORTEST_WORKSPACE];
    let (mut changed, mut runs) = (false, 0);
    for word in words {
        let end = foq::run(table, n, word, workspace).unwrap();
        let block = foq::circuit_run(circuit, word).unwrap();
        let mut bits = [0; 32];
        bits[..8].copy_from_slice(&end.to_le_bytes());
        assert_eq!(block.bits, bits, "n = {n}, {word:x}, {table:02x?}");
        assert_eq!((u32::from(block.data), block.ancillas), (n, circuit[2]));
        changed |= end != word;
        runs += 1;
    }
    (changed, runs)
}

/// The circuit reader gives back n, the most ancillas in use and the number of
/// gates emitted, which is within the bound. Counts the classes of the calls,
/// and gives the tally of the emission.
pub fn assert_read_back(table: &[u8], n: u32, circuit: &[u8], counts: &mut Counts) -> Tally {
    let program = read_table(table).unwrap();
    let emitted = emission(&program, n, LONGEST_CIRCUIT).unwrap();
    let header = foq::Circuit {
        qubits: n,
        ancillas: emitted.ancillas.into(),
        gates: emitted.gates.len() as u32,
    };
    assert_eq!(foq::circuit_read(circuit), Ok(header));
    assert!(u128::from(header.gates) <= gate_bound(&program, n));
    count_steps(&emitted.tally, counts);
    emitted.tally
}
