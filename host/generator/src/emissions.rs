//! Tables whose emission is at a limit: long, wide, deep or slow, or mostly
//! swaps.

use crate::tables::{leaning_right, nested_bodies, MOST_PROCEDURES};
use crate::tree::{
    call, case, choose, in_order, longer_than, not, procedure, sequence, table, Condition,
    Number, Statement,
};
use Number::{Constant, SizePlus};

/// A table whose circuit is mostly swaps. Five qcases, one inside the other,
/// have a self call in each of their 32 branches, without their qubits and one
/// more: in the first branch that is the last one, in the others the first one
/// left. So each later list has every qubit on another wire than the first.
#[must_use]
pub fn merged_lists() -> Vec<u8> {
    let cases = 5;
    let without = |last| {
        let mut removed = vec![Constant(1); cases];
        removed.push(last);
        Statement::Call(removed, 1)
    };
    let mut calls = vec![without(Constant(1)); 1 << cases];
    calls[0] = without(SizePlus(-5));
    procedure(choose(longer_than(5), spread(1, &calls), not(1)))
}

/// One of the statements in each branch of qcases on positions from this one
/// on.
#[must_use]
pub fn spread(position: i16, statements: &[Statement]) -> Statement {
    match statements {
        [] => Statement::Skip,
        [statement] => statement.clone(),
        _ => {
            let (zero, one) = statements.split_at(statements.len() / 2);
            let next = position + 1;
            case(position, spread(next, zero), spread(next, one))
        }
    }
}

/// Bodies of procedures `first` and on, each of which calls the next and the
/// one after it from the two branches of a qcase, in a ring. Each pair is
/// called twice, so that with `count` of them a chain on n qubits takes some
/// 2 × `count` × n ancillas.
#[must_use]
pub fn ring(first: u8, count: u8) -> Vec<Statement> {
    let body = |own: u8| {
        let after = |steps| first + (own + steps) % count;
        case(1, call(after(1), &[1]), call(after(2), &[1]))
    };
    (0..count).map(body).collect()
}

/// The number of qubits for [`filled`].
const FILLED_QUBITS: u8 = 32;
/// The procedures of [`filled`] that are nested classes.
const FILLED_CLASSES: u8 = 3;
/// The first free procedure of [`filled`].
pub const FILLED_NEXT: u8 = FILLED_CLASSES + 2;

/// A table whose emission on 32 qubits first places this many bytes, those of
/// the header among them and 12 at least, and then goes on with a statement of
/// main. Its procedures are [`FILLED_NEXT`] and on, with these bodies.
#[must_use]
pub fn filled(bytes: usize, then: Statement, bodies: &[Statement]) -> Vec<u8> {
    let mut left = bytes.saturating_sub(7);
    let mut parts = Vec::new();
    // All other parts have an even number of bytes; this one has five.
    if left % 2 == 1 {
        parts.push(case(1, Statement::Skip, case(2, Statement::Skip, not(3))));
        left -= 5.min(left);
    }
    for (length, part) in fillers() {
        while length <= left {
            parts.push(part.clone());
            left -= length;
        }
    }
    parts.push(then);
    let flips = in_order(vec![not(1); FLIPS]);
    let own = [nested_bodies(FILLED_CLASSES), vec![flips]].concat();
    table(in_order(parts), &[&own, bodies].concat())
}

/// The NOTs in the last of the procedures that fill.
const FLIPS: usize = 5;

/// Statements of main and the bytes that they place, the longest first: calls
/// of nested classes, of a procedure of five NOTs, and a NOT.
fn fillers() -> Vec<(usize, Statement)> {
    let mut fillers = Vec::new();
    for procedure in 1..=FILLED_CLASSES {
        for removed in 0..=8 {
            let classes = FILLED_CLASSES + 1 - procedure;
            let bytes = chain_bytes(classes, FILLED_QUBITS - removed, 2);
            let removed = vec![1; removed.into()];
            fillers.push((bytes, call(procedure, &removed)));
        }
    }
    fillers.push((2 + 4 * FLIPS + 2, call(FILLED_CLASSES + 1, &[])));
    fillers.push((2, not(1)));
    fillers
}

/// The bytes of a chain of nested classes whose ancilla is flipped by
/// gates of `flip` bytes. All gates inside have one control and four bytes:
/// for each length the inner chain, the NOT and, where a qubit is left, two
/// flips for the self call.
fn chain_bytes(classes: u8, qubits: u8, flip: usize) -> usize {
    let body = |length| {
        let inner = match classes {
            1 => 0,
            _ => chain_bytes(classes - 1, length, 4),
        };
        inner + if length == 1 { 4 } else { 12 }
    };
    2 * flip + (1..=qubits).map(body).sum::<usize>()
}

/// A table on which compile goes deepest, for lists of length n: main and
/// procedures 1 to 9, of which each calls the next at the bottom of its tree,
/// lead to a class of seven. Its first procedure calls all seven, and each of
/// them goes on by itself to ever shorter lists: some 7 × n bodies stand one
/// inside the other, and each takes a single ancilla.
#[must_use]
pub fn deepest_emission(n: i16) -> Vec<u8> {
    let depths = [32, 32, 32, 10, 1, 1, 1, 1, 1, 1];
    let lead = |(next, depth)| leaning_right(depth, call(next, &[]));
    let mut bodies: Vec<Statement> = (1..).zip(depths).map(lead).collect();
    let main = bodies.remove(0);
    let first = depths.len() as u8;
    let lanes: Vec<Statement> = (first..=MOST_PROCEDURES)
        .map(|own| call(own, &[1]))
        .collect();
    let whole = Condition::Equal(SizePlus(0), Constant(n));
    bodies.push(choose(whole, spread(1, &lanes), call(first, &[1])));
    // A condition that never holds makes them one class.
    let back = Condition::Greater(Constant(0), Constant(0));
    let lane = |own: &Statement| choose(back.clone(), call(first, &[1]), own.clone());
    bodies.extend(lanes.iter().skip(1).map(lane));
    table(main, &bodies)
}

/// The number of qubits for [`slowest_compile`].
pub const SLOWEST_QUBITS: u32 = 29;
/// The qcases of [`slow_body`], each of which closes a qubit of its own.
const SLOW_CASES: i16 = 11;

/// The slowest table for compile that is known, on 29 qubits: 252 records, and a
/// circuit of 65,515 bytes. Procedure 4 has a slow body, and its chain places no
/// gates but the two flips, in eight bytes, so that 6,650 such chains fit. For
/// that procedures 1 to 3 are nested classes: each goes on to itself without
/// position 12, as long as its list has one, and the third calls procedure 4
/// five times. On 11 to 28 qubits there are fewer chains, on 30 and more the
/// room is too short.
#[must_use]
pub fn slowest_compile() -> Vec<u8> {
    let and_again = |inner, own| sequence(inner, call(own, &[SLOW_CASES + 1]));
    let bodies = [
        and_again(call(2, &[]), 1),
        and_again(call(3, &[]), 2),
        and_again(in_order(vec![call(4, &[]); 5]), 3),
        slow_body(4),
    ];
    table(call(1, &[]), &bodies)
}

/// A body whose parts are slow to find, and which emits nothing: the 205 records
/// of three conditions that do not hold are asked for its left part and again
/// for its right one. An emission that counts the calls of a zero branch at each
/// qcase asks them 11 times more. The self call empties its list.
fn slow_body(own: u8) -> Statement {
    let unless = |rest, levels| choose(full_of_tests(levels), Statement::Skip, rest);
    let ifs = [4, 6, 7].into_iter().fold(call(own, &[0]), unless);
    let within = |rest, position| case(position, rest, Statement::Skip);
    (1..=SLOW_CASES).fold(ifs, within)
}

/// A full tree of ors of comparisons that do not hold, so that all of them are
/// asked: 2^levels − 1 records.
fn full_of_tests(levels: usize) -> Condition {
    let end = Condition::Greater(Constant(0), SizePlus(0));
    let both = |half: Condition, _| Condition::Or(Box::new(half.clone()), Box::new(half));
    (1..levels).fold(end, both)
}
