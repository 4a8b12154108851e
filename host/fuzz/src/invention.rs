//! New inputs, out of nothing and out of old ones.

use crate::input::{Circuit, Table};
use crate::trees::{replaced, trees, Tree};
use foq_generator::circuits::{circuit, crowded_circuit, sizes};
use foq_generator::damage::damaged;
use foq_generator::equal_lengths::equal_lengths;
use foq_generator::programs::{
    program, program_of_few_classes, wild_program, LARGE, MEETING, MERGING, SMALL,
};
use foq_generator::size_left::{program_by_size_left, reversal, wild_program_by_size_left};
use foq_generator::steps::program_of_steps;
use foq_generator::tables::{
    deepest, eight_removals, every_kind, leaning_left, leaning_right, nested_classes,
    one_in_each_branch, sixteen_in_turn, two_in_turn,
};
use foq_generator::tree::{encode, table, Number, Statement};
use foq_generator::{Random, PAIRS};
use foq_reference::{circuit_bytes, read_circuit, LONGEST_CIRCUIT, SHORTEST_WORKSPACE};

/// No table is made longer than this: none is read past byte 7,654.
const LONG_TABLE: usize = 8_000;

/// Tables to begin with.
fn known_tables() -> [Vec<u8>; 13] {
    [
        PAIRS.to_vec(),
        every_kind(),
        one_in_each_branch(),
        two_in_turn(),
        eight_removals(),
        nested_classes(2),
        nested_classes(3),
        nested_classes(16),
        sixteen_in_turn(),
        deepest(leaning_left),
        deepest(leaning_right),
        reversal(),
        equal_lengths(3, 2),
    ]
}

/// A number of qubits: mostly few, now and then one that is refused.
fn qubits(random: &mut Random) -> u32 {
    match random.below(20) {
        0 => [0, 33, 255, 256, u32::MAX][random.below(5)],
        1..12 => 1 + random.below(6) as u32,
        _ => 1 + random.below(32) as u32,
    }
}

/// A word, mostly below 2 to the power n.
fn word(random: &mut Random, n: u32) -> u64 {
    match random.below(20) {
        0 => random.word(),
        1 => 1 << random.below(64),
        _ => random.word() & ((1 << n.min(32)) - 1),
    }
}

/// A length of a workspace, mostly enough.
fn workspace(random: &mut Random) -> usize {
    match random.below(20) {
        0 => random.below(SHORTEST_WORKSPACE),
        1 => SHORTEST_WORKSPACE - 1,
        2 => SHORTEST_WORKSPACE + random.below(9_000),
        _ => SHORTEST_WORKSPACE,
    }
}

/// A length of a room, mostly short.
fn room(random: &mut Random) -> usize {
    match random.below(4) {
        0 => random.below(9),
        1 => random.below(LONGEST_CIRCUIT + 9_000),
        _ => random.below(400),
    }
}

/// A table on n qubits with other numbers of every sort.
fn with_numbers(random: &mut Random, bytes: Vec<u8>, n: u32) -> Table {
    Table {
        bytes,
        n,
        word: word(random, n),
        room: room(random),
        workspace: workspace(random),
    }
}

/// A table out of nothing.
#[must_use]
pub fn fresh_table(random: &mut Random) -> Table {
    let n = qubits(random);
    let bytes = match random.below(20) {
        0..4 => encode(&program(random, &SMALL)),
        4..8 => encode(&program(random, &MERGING)),
        8..10 => encode(&program(random, &LARGE)),
        10..14 => encode(&program_by_size_left(random, n)),
        14 => encode(&program_of_few_classes(random, &MEETING)),
        15 => encode(&wild_program(random, &SMALL)),
        16 => encode(&wild_program_by_size_left(random)),
        17 | 18 => encode(&program_of_steps(random, n)),
        _ => known_tables()[random.below(13)].clone(),
    };
    with_numbers(random, bytes, n)
}

/// A circuit out of nothing.
#[must_use]
pub fn fresh_circuit(random: &mut Random) -> Circuit {
    let (n, ancillas) = sizes(random);
    let gates = [1, 4, 16, 64, 300][random.below(5)];
    let bytes = if random.chance(10) {
        crowded_circuit(random, n, ancillas, gates)
    } else {
        circuit(random, n, ancillas, gates)
    };
    let word = word(random, n.into());
    Circuit { bytes, word }
}

/// A table with something changed, perhaps by a piece of the other.
#[must_use]
pub fn changed_table(random: &mut Random, old: &Table, other: &Table) -> Table {
    let trees = trees(&old.bytes);
    let changed = match random.below(10) {
        0 => {
            let n = qubits(random);
            return with_numbers(random, old.bytes.clone(), n);
        }
        1..4 => grafted(random, &old.bytes, &trees, &other.bytes),
        4..6 => wrapped(random, &old.bytes, &trees),
        6..9 => nudged(random, &old.bytes, &trees),
        _ => None,
    };
    let mut bytes = changed.unwrap_or_else(|| damaged(random, &old.bytes));
    bytes.truncate(LONG_TABLE);
    Table {
        bytes,
        ..old.clone()
    }
}

/// One of the statements among these trees.
fn statement<'a>(random: &mut Random, trees: &'a [Tree]) -> Option<&'a Tree> {
    let statements: Vec<&Tree> = trees.iter().filter(|tree| tree.is_statement()).collect();
    random.pick(&statements)
}

/// A statement of the other table in the place of one of this table. Its calls
/// are turned to procedures that there are.
fn grafted(random: &mut Random, table: &[u8], trees: &[Tree], other: &[u8]) -> Option<Vec<u8>> {
    let place = statement(random, trees)?;
    let others = self::trees(other);
    let piece = &statement(random, &others)?.range;
    let mut bytes = other.to_vec();
    for at in others.iter().filter_map(Tree::procedure) {
        bytes[at] = 1 + bytes[at] % table[1].max(1);
    }
    Some(replaced(table, &place.range, &bytes[piece.clone()]))
}

/// A statement put into a sequence or a qcase, with a short one beside it.
fn wrapped(random: &mut Random, table: &[u8], trees: &[Tree]) -> Option<Vec<u8>> {
    let place = &statement(random, trees)?.range;
    let own = &table[place.clone()];
    let short = &short(random, table[1])[..];
    let qcase = [2, 4, 0, random.below(5) as u8, 0];
    let head = if random.chance(50) {
        &[0, 2]
    } else {
        &qcase[..]
    };
    let wrapped = if random.chance(50) {
        [head, own, short].concat()
    } else {
        [head, short, own].concat()
    };
    Some(replaced(table, place, &wrapped))
}

/// The bytes of a short statement in a table of p procedures.
fn short(random: &mut Random, p: u8) -> Vec<u8> {
    let number = |random: &mut Random| match random.below(3) {
        0 => Number::Constant(random.between(0, 4)),
        1 => Number::SizePlus(random.between(-3, 1)),
        _ => Number::LeftPlus(random.between(-3, 1)),
    };
    let removals = (0..random.below(3)).map(|_| number(random)).collect();
    let statement = match random.below(4) {
        0 => Statement::Skip,
        1 => Statement::Not(removals, number(random)),
        _ if p == 0 => Statement::Skip,
        _ => Statement::Call(removals, 1 + random.below(p.into()) as u8),
    };
    table(statement, &[])[2..].to_vec()
}

/// One number of the table made a little larger or smaller, or its base changed.
fn nudged(random: &mut Random, table: &[u8], trees: &[Tree]) -> Option<Vec<u8>> {
    let numbers: Vec<usize> = trees.iter().flat_map(|tree| tree.numbers.clone()).collect();
    let at = random.pick(&numbers)?;
    let mut bytes = table.to_vec();
    if random.chance(20) {
        // A number that is read has base 0, 1 or 2; this is one of the others.
        bytes[at] = (bytes[at] + 1 + random.below(2) as u8) % 3;
    } else {
        let constant = i16::from_le_bytes([bytes[at + 1], bytes[at + 2]]);
        let nudged = constant.wrapping_add(random.between(-2, 2));
        bytes[at + 1..at + 3].copy_from_slice(&nudged.to_le_bytes());
    }
    Some(bytes)
}

/// A circuit with something changed.
#[must_use]
pub fn changed_circuit(random: &mut Random, old: &Circuit) -> Circuit {
    let mut new = old.clone();
    match random.below(8) {
        0 => new.word = random.word() >> random.below(64),
        1..5 => new.bytes = regated(random, &old.bytes),
        _ => new.bytes = damaged(random, &old.bytes),
    }
    new
}

/// A well-formed circuit with a gate left out, written twice or moved; another
/// one is damaged.
fn regated(random: &mut Random, old: &[u8]) -> Vec<u8> {
    let Ok(mut circuit) = read_circuit(old) else {
        return damaged(random, old);
    };
    let gates = &mut circuit.gates;
    let (one, other) = (random.below(gates.len()), random.below(gates.len()));
    match random.below(3) {
        _ if gates.is_empty() => {}
        0 => drop(gates.remove(one)),
        1 => gates.insert(other, gates[one].clone()),
        _ => gates.swap(one, other),
    }
    circuit_bytes(&circuit)
}
