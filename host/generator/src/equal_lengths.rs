//! Tables in which procedures meet at one list length. Random programs of that
//! kind are those of [`crate::programs::program_of_few_classes`].

use crate::emissions::spread;
use crate::tables::MOST_PROCEDURES;
use crate::tree::{
    call, case, choose, longer_than, not, sequence, table, Condition, Number, Statement,
};
use Number::{Constant, SizePlus};

/// Procedure 1 calls these two, where its first qubit is 0 and where it is 1,
/// without that qubit. Procedure 2 flips its first qubit and procedure 3 its
/// last one, and each goes on to procedure 1 without the first.
#[must_use]
pub fn equal_lengths(zero: u8, one: u8) -> Vec<u8> {
    let and_on = |flip| sequence(flip, call(1, &[1]));
    let bodies = [
        case(1, call(zero, &[1]), call(one, &[1])),
        and_on(not(1)),
        and_on(Statement::Not(vec![], SizePlus(0))),
    ];
    table(call(1, &[]), &bodies)
}

/// Procedure 1 calls these four from the branches of qcases on its first two
/// qubits, without both. Procedures 2 to 5 flip the qubit at the position of
/// their number. Their calls have nothing left, and only make them one class.
#[must_use]
pub fn four_of_one_length(called: [u8; 4]) -> Vec<u8> {
    let calls = called.map(|procedure| call(procedure, &[1, 1]));
    let flips = |own| sequence(not(own), call(1, &[0]));
    let bodies = [vec![spread(1, &calls)], (2..=5).map(flips).collect()];
    table(call(1, &[]), &bodies.concat())
}

/// Sixteen procedures, each of which has a body at every third length from
/// n − 4 down. With n qubits procedure 1 calls all of them. With fewer qubits
/// each flips its first one and calls another without three: 1 calls 16, 2 calls
/// 15, and so on. So the highest one is always called first.
#[must_use]
pub fn sixteen_of_one_length(n: i16) -> Vec<u8> {
    let lane = |own| call(MOST_PROCEDURES + 1 - own, &[1, 1, 1]);
    // A condition that never holds makes them one class.
    let back = Condition::Greater(Constant(0), Constant(0));
    let body = |own| {
        let on = choose(back.clone(), call(1, &[1]), lane(own));
        sequence(not(1), on)
    };
    let mut bodies: Vec<Statement> = (1..=MOST_PROCEDURES).map(body).collect();
    let first_calls = (1..=MOST_PROCEDURES).rev().map(|own| call(own, &[1; 4]));
    let all = spread(1, &Vec::from_iter(first_calls));
    bodies[0] = choose(longer_than(n - 1), all, bodies[0].clone());
    table(call(1, &[]), &bodies)
}
