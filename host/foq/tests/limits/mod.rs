//! Constants of numbers, and trees, at their limits.

// Each test uses a part of this.
#![allow(dead_code)]

use foq_generator::tables::{leaning_left, leaning_right, negations};
use foq_generator::tree::{case, choose, longer_than, Condition, Statement};

/// Constants at the ends of 16 bits and about the sizes of lists.
pub const CONSTANTS: [i16; 15] = [
    i16::MIN,
    i16::MIN + 1,
    -33,
    -32,
    -31,
    -1,
    0,
    1,
    2,
    31,
    32,
    33,
    i16::MAX - 32,
    i16::MAX - 1,
    i16::MAX,
];

/// Trees of this depth on 32 qubits: sequences, ifs and qcases that lean to
/// either side, and conditions of every kind.
pub fn trees(depth: usize) -> Vec<Statement> {
    let skip = || Statement::Skip;
    let grown = |step: &dyn Fn(Statement, i16) -> Statement| {
        (1..depth).fold(skip(), |inner, turn| step(inner, turn as i16))
    };
    let asks = |condition| choose(condition, skip(), skip());
    let conditions = |join: &dyn Fn(Condition) -> Condition| {
        asks((2..depth).fold(longer_than(1), |inner, _| join(inner)))
    };
    let short = || Box::new(longer_than(1));
    vec![
        leaning_left(depth, skip()),
        leaning_right(depth, skip()),
        grown(&|inner, _| choose(longer_than(0), inner, skip())),
        grown(&|inner, _| choose(longer_than(32), skip(), inner)),
        // Qubits 32 down to 1, so that each is closed once.
        grown(&|inner, turn| case(33 - turn, inner, skip())),
        grown(&|inner, turn| case(33 - turn, skip(), inner)),
        asks(negations(depth - 1)),
        conditions(&|inner| Condition::And(Box::new(inner), short())),
        conditions(&|inner| Condition::And(short(), Box::new(inner))),
        conditions(&|inner| Condition::Or(Box::new(inner), short())),
        conditions(&|inner| Condition::Or(short(), Box::new(inner))),
    ]
}
