//! A smaller input that still shows a difference.

use crate::input::{Circuit, Input, Table};
use crate::trees::{replaced, trees, Tree};
use foq_reference::{circuit_bytes, read_circuit, Action, Gate, SHORTEST_WORKSPACE};
use std::iter::successors;
use std::ops::Range;

/// Goes on to a smaller input for as long as one fails. Each has fewer bytes, a
/// lower base among as many bytes or, with the same bytes, a smaller number
/// beside them, so this ends.
pub fn shrunk(input: Input, fails: impl Fn(&Input) -> bool) -> Input {
    let steps = successors(Some(input.clone()), |input| smaller(input).find(&fails));
    steps.last().unwrap_or(input)
}

/// Inputs that are somewhat smaller, the smallest mostly first.
fn smaller(input: &Input) -> Box<dyn Iterator<Item = Input> + '_> {
    match input {
        Input::Table(table) => Box::new(smaller_tables(table).map(Input::Table)),
        Input::Circuit(circuit) => Box::new(smaller_circuits(circuit).map(Input::Circuit)),
    }
}

fn smaller_tables(table: &Table) -> impl Iterator<Item = Table> + '_ {
    let fewer_trees = with_smaller_trees(&table.bytes).into_iter();
    let shorter = fewer_trees.chain(with_pieces_cut(&table.bytes));
    let simpler = shorter.chain(with_lower_bases(&table.bytes));
    let simpler = simpler.map(|bytes| Table {
        bytes,
        ..table.clone()
    });
    let tables = simpler.chain(with_smaller_numbers(table));
    tables.filter(move |smaller| smaller != table)
}

/// The table with fewer qubits, another word, a shorter room, or the shortest
/// workspace that is enough.
fn with_smaller_numbers(table: &Table) -> Vec<Table> {
    let with = |change: &dyn Fn(&mut Table)| {
        let mut changed = table.clone();
        change(&mut changed);
        changed
    };
    let mut tables = vec![with(&|table| table.workspace = SHORTEST_WORKSPACE)];
    for n in [table.n / 2, table.n.saturating_sub(1)] {
        tables.push(with(&|table| table.n = n));
    }
    for word in smaller_words(table.word) {
        tables.push(with(&|table| table.word = word));
    }
    for room in [0, table.room / 2, table.room.saturating_sub(1)] {
        tables.push(with(&|table| table.room = room));
    }
    tables
}

/// The table with a statement made a skip or made one of its own parts, with
/// a record without its removals or one of them, or without its last body.
fn with_smaller_trees(table: &[u8]) -> Vec<Vec<u8>> {
    const SKIP: &[u8] = &[0, 0];
    let trees = trees(table);
    let mut tables: Vec<_> = without_last_body(table, &trees).into_iter().collect();
    for tree in trees.iter().filter(|tree| tree.is_statement()) {
        let range = &tree.range;
        if range.len() > SKIP.len() {
            tables.push(replaced(table, range, SKIP));
        }
        let parts = trees.iter().filter(|part| {
            let inside = range.start < part.range.start && part.range.end <= range.end;
            inside && part.is_statement()
        });
        tables.extend(parts.map(|part| replaced(table, range, &table[part.range.clone()])));
        tables.extend(without_removals(table, range.start));
        tables.extend(without_one_removal(table, range.start));
    }
    tables
}

/// The table without its last body, the one that no other tree follows.
fn without_last_body(table: &[u8], trees: &[Tree]) -> Option<Vec<u8>> {
    let last = trees.iter().find(|tree| tree.range.end == table.len())?;
    let mut shorter = table[..last.range.start].to_vec();
    shorter[1] = shorter[1].checked_sub(1)?;
    Some(shorter)
}

/// The table with the record that begins here without its removals.
fn without_removals(table: &[u8], start: usize) -> Option<Vec<u8>> {
    let map = table[start];
    let count = start + 2;
    let end = count + 1 + 3 * usize::from(*table.get(count)?);
    let mut shorter = (map & 1 != 0).then(|| replaced(table, &(count..end), &[]))?;
    shorter[start] = map & !1;
    Some(shorter)
}

/// The table with the record that begins here without one of its removals, of
/// which it keeps others.
fn without_one_removal(table: &[u8], start: usize) -> Vec<Vec<u8>> {
    let count = start + 2;
    let removals = match table[start] & 1 {
        0 => 0,
        _ => usize::from(table[count]),
    };
    let turns = (0..removals).filter(|_| removals > 1);
    let without = turns.map(|turn| {
        let at = count + 1 + 3 * turn;
        let mut shorter = replaced(table, &(at..at + 3), &[]);
        shorter[count] -= 1;
        shorter
    });
    without.collect()
}

/// The table with a lower base in one of its numbers.
fn with_lower_bases(table: &[u8]) -> Vec<Vec<u8>> {
    let mut tables = Vec::new();
    for at in trees(table).into_iter().flat_map(|tree| tree.numbers) {
        for base in 0..table[at] {
            tables.push(replaced(table, &(at..at + 1), &[base]));
        }
    }
    tables
}

/// Pieces that can be cut out of so many things, long ones first.
fn pieces(whole: usize) -> impl Iterator<Item = Range<usize>> {
    let halves = successors(Some(whole), |length| Some(length / 2));
    let lengths = halves.take_while(|&length| length > 0);
    lengths.flat_map(move |length| {
        let starts = (0..whole).step_by(length);
        starts.map(move |start| start..(start + length).min(whole))
    })
}

/// The bytes without a piece.
fn with_pieces_cut(bytes: &[u8]) -> impl Iterator<Item = Vec<u8>> + '_ {
    pieces(bytes.len()).map(|piece| replaced(bytes, &piece, &[]))
}

/// The word without its upper bits, or without one of its bits.
fn smaller_words(word: u64) -> Vec<u64> {
    let mut words = vec![0, word & 0xFFFF_FFFF, word & 0xFFFF, word & 0xFF];
    words.extend((0..64).map(|bit| word & !(1 << bit)));
    words
}

fn smaller_circuits(circuit: &Circuit) -> impl Iterator<Item = Circuit> + '_ {
    let bytes = &circuit.bytes;
    let shorter = with_fewer_gates(bytes).chain(with_smaller_gates(bytes));
    let shorter = shorter.chain(with_pieces_cut(bytes));
    let shorter = shorter.map(|bytes| Circuit {
        bytes,
        ..circuit.clone()
    });
    let words = smaller_words(circuit.word).into_iter();
    let circuits = shorter.chain(words.map(|word| Circuit {
        word,
        ..circuit.clone()
    }));
    circuits.filter(move |smaller| smaller != circuit)
}

/// A well-formed circuit without some of its gates.
fn with_fewer_gates(bytes: &[u8]) -> impl Iterator<Item = Vec<u8>> {
    let circuit = read_circuit(bytes).ok().into_iter();
    circuit.flat_map(|circuit| {
        pieces(circuit.gates.len()).map(move |piece| {
            let mut fewer = circuit.clone();
            fewer.gates.drain(piece);
            circuit_bytes(&fewer)
        })
    })
}

/// A well-formed circuit with one of its gates made smaller.
fn with_smaller_gates(bytes: &[u8]) -> impl Iterator<Item = Vec<u8>> {
    let circuit = read_circuit(bytes).ok().into_iter();
    circuit.flat_map(|circuit| {
        let places = 0..circuit.gates.len();
        places.flat_map(move |place| {
            let with = |gate| {
                let mut changed = circuit.clone();
                changed.gates[place] = gate;
                circuit_bytes(&changed)
            };
            let gates = smaller_gates(&circuit.gates[place]).into_iter();
            gates.map(with).collect::<Vec<_>>()
        })
    })
}

/// A NOT of the gate's target, and the gate without one of its controls.
fn smaller_gates(gate: &Gate) -> Vec<Gate> {
    let (Action::Not { target } | Action::Swap { lower: target, .. }) = gate.action;
    let mut gates = vec![Gate {
        action: Action::Not { target },
        controls: vec![],
    }];
    for control in 0..gate.controls.len() {
        let mut fewer = gate.clone();
        fewer.controls.remove(control);
        gates.push(fewer);
    }
    gates
}
