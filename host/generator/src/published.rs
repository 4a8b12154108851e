//! Programs of source 002 whose only operator is NOT. PAIRS, its figure 2, is
//! [`crate::PAIRS`].

use crate::tree::{
    call, case, choose, in_order, longer_than, not, procedure, qcase, table, Number, Statement,
};
use Number::{Constant, SizePlus};

/// Palindromes, example 5 of source 002: the last qubit is flipped where the
/// others read alike from both ends.
#[must_use]
pub fn palindromes() -> Vec<u8> {
    let inner = || Statement::Call(vec![Constant(1), SizePlus(-2)], 1);
    let last = |zero, one| qcase(vec![], SizePlus(-1), zero, one);
    let alike = case(
        1,
        last(inner(), Statement::Skip),
        last(Statement::Skip, inner()),
    );
    procedure(choose(longer_than(2), alike, flip_last()))
}

/// Chained substring, example 6 of source 002 with the program of its appendix
/// C: the last qubit is flipped where the others hold 001 and later 11.
#[must_use]
pub fn chained_substring() -> Vec<u8> {
    let goes_on = |zero, one| case(1, call(zero, &[1]), call(one, &[1]));
    let bodies = [
        goes_on(2, 1),
        goes_on(3, 1),
        goes_on(3, 4),
        goes_on(4, 5),
        goes_on(4, 6),
        flip_last(),
    ];
    table(call(1, &[]), &bodies)
}

/// Full adder, example 3 of source 002, on 3 × k + 1 qubits for k binary
/// places. No branch has a call.
#[must_use]
pub fn full_adder() -> Vec<u8> {
    let flip = |back: i16| Statement::Not(vec![], SizePlus(-back));
    let where_one = |position, inner| case(position, Statement::Skip, inner);
    let carry = |inner| qcase(vec![], SizePlus(0), Statement::Skip, inner);
    let steps = vec![
        where_one(1, where_one(2, flip(1))),
        where_one(1, not(2)),
        where_one(2, carry(flip(1))),
        where_one(2, flip(0)),
        where_one(1, not(2)),
        Statement::Call(vec![Constant(1), Constant(1), SizePlus(-2)], 1),
    ];
    procedure(choose(longer_than(3), in_order(steps), Statement::Skip))
}

/// A NOT of the last position.
fn flip_last() -> Statement {
    Statement::Not(vec![], SizePlus(0))
}
