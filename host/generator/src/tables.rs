//! Single tables: small ones of every kind, and those at a limit.

use crate::tree::{
    call, case, choose, longer_than, not, procedure, qcase, sequence, table, Condition, Number,
    Statement,
};
use Number::{Constant, SizePlus};

/// "p, the number of procedures, 0 to 16".
pub(crate) const MOST_PROCEDURES: u8 = 16;
/// "a tree is at most 32 records deep".
const DEEPEST: usize = 32;

/// A table with a record of every kind, accepted; its circuit swaps and has a
/// chain inside a chain.
#[must_use]
pub fn every_kind() -> Vec<u8> {
    let long = Condition::And(
        Box::new(Condition::Greater(SizePlus(0), Constant(2))),
        Box::new(Condition::Not(Box::new(Condition::Or(
            Box::new(Condition::Equal(SizePlus(1), Constant(1))),
            Box::new(Condition::AtLeast(Constant(2), SizePlus(0))),
        )))),
    );
    let split = case(1, call(1, &[1, 1]), call(1, &[1, 2]));
    let flip = Statement::Not(vec![SizePlus(0)], Constant(1));
    let yes = sequence(flip, sequence(split, call(2, &[])));
    let bodies = [
        choose(long, yes, Statement::Skip),
        Statement::Not(vec![], SizePlus(0)),
    ];
    table(call(1, &[]), &bodies)
}

/// A qcase on position 1 with a self call without position 1 in each branch:
/// its calls are 2 to the power n, its pairs of procedure and length are n.
#[must_use]
pub fn one_in_each_branch() -> Vec<u8> {
    procedure(case(1, call(1, &[1]), call(1, &[1])))
}

/// A qcase on position 1 whose branches call without position 1 and without
/// position 2: accepted at n = 1, an access fault from n = 2 on.
#[must_use]
pub fn closed_through_a_call() -> Vec<u8> {
    procedure(case(1, call(1, &[1]), call(1, &[2])))
}

/// Two self calls in sequence, position 1 removed in each: too wide.
#[must_use]
pub fn two_in_sequence() -> Vec<u8> {
    procedure(sequence(call(1, &[1]), call(1, &[1])))
}

/// A self call without removal.
#[must_use]
pub fn without_removal() -> Vec<u8> {
    procedure(call(1, &[]))
}

/// Two procedures that call each other, each without its qcase qubit.
#[must_use]
pub fn two_in_turn() -> Vec<u8> {
    let first = case(1, call(2, &[1]), Statement::Skip);
    let second = sequence(not(1), call(1, &[1]));
    table(call(1, &[]), &[first, second])
}

/// NOT, qcase and call with eight removals each, accepted from n = 9 on.
#[must_use]
pub fn eight_removals() -> Vec<u8> {
    let removed = vec![Constant(1); 8];
    let zero = Statement::Not(removed.clone(), Constant(1));
    let one = Statement::Call(removed, 1);
    let last = (0..8).map(|back| SizePlus(-back)).collect();
    let main = qcase(last, Constant(1), zero, one);
    table(main, &[Statement::Skip])
}

/// Procedures 1 to `classes`, each of which flips its first qubit, calls the
/// next with its whole list and then itself without its first qubit. A run
/// goes through some n to the power `classes` calls.
#[must_use]
pub fn nested_classes(classes: u8) -> Vec<u8> {
    table(call(1, &[]), &nested_bodies(classes))
}

/// The bodies of [`nested_classes`].
pub(crate) fn nested_bodies(classes: u8) -> Vec<Statement> {
    let body = |own: u8| {
        let again = sequence(not(1), call(own, &[1]));
        if own == classes {
            return again;
        }
        sequence(call(own + 1, &[]), again)
    };
    (1..=classes).map(body).collect()
}

/// Sixteen procedures of which each calls the next and the one after it, from
/// the two branches of a qcase: all are one class, and the records are 255.
#[must_use]
pub fn sixteen_in_turn() -> Vec<u8> {
    let body = |own: u8| {
        let after = |steps| (own - 1 + steps) % MOST_PROCEDURES + 1;
        let split = case(1, call(after(1), &[1]), call(after(2), &[1]));
        // Six records and two for each NOT; a negated condition is one more.
        let short = own > 14;
        let nots = if short { 4 } else { 5 };
        let yes = (0..nots).fold(split, |rest, turn| sequence(not(1 + turn % 2), rest));
        if short {
            let negated = Condition::Not(Box::new(longer_than(1)));
            return choose(negated, not(1), yes);
        }
        choose(longer_than(1), yes, not(1))
    };
    let bodies: Vec<Statement> = (1..=MOST_PROCEDURES).map(body).collect();
    table(call(1, &[]), &bodies)
}

/// A tree of sequences whose `depth` records down to `last` are its first
/// ones, each with a NOT of position 1 behind it: 2 × `depth` − 1 records.
#[must_use]
pub fn leaning_left(depth: usize, last: Statement) -> Statement {
    (1..depth).fold(last, |rest, _| sequence(rest, not(1)))
}

/// The same with the NOTs in front.
#[must_use]
pub fn leaning_right(depth: usize, last: Statement) -> Statement {
    (1..depth).fold(last, |rest, _| sequence(not(1), rest))
}

/// A condition of this depth: a comparison under negations.
#[must_use]
pub fn negations(depth: usize) -> Condition {
    let negated = |inner| Condition::Not(Box::new(inner));
    (1..depth).fold(longer_than(1), |inner, _| negated(inner))
}

/// A full tree of sequences with this many levels: 2^levels − 1 records.
#[must_use]
pub fn full(levels: usize) -> Statement {
    (1..levels).fold(Statement::Skip, |half, _| sequence(half.clone(), half))
}

/// The table of 255 records in which a run is deepest: main leads through
/// procedures 1 to 15, each at the bottom of its tree, to procedure 16, which
/// calls itself without position 1 at the bottom of a tree 32 records deep.
/// On n qubits, 104 + 32 × n records are open at once. Procedure 16 flips each
/// qubit 31 times, and the others flip qubit 1 88 times: every bit changes.
#[must_use]
pub fn deepest(lean: fn(usize, Statement) -> Statement) -> Vec<u8> {
    // 63 records are the last tree's. The 192 others are 16 trees of 11 or 13.
    let lead = |own: u8| lean(6 + usize::from(own % 2), call(own + 1, &[]));
    let mut bodies: Vec<Statement> = (1..MOST_PROCEDURES).map(lead).collect();
    bodies.push(lean(DEEPEST, call(MOST_PROCEDURES, &[1])));
    table(lead(0), &bodies)
}
