//! Random programs of many sequences, whose steps mostly cannot change places:
//! they flip a qubit where another one holds 0 or 1. Turned round, such a program
//! mostly ends with other words.

use crate::tree::{
    call, case, choose, longer_than, not, qcase, sequence, Number, Program, Statement,
};
use crate::Random;
use Number::{Constant, SizePlus};

/// Three entries of every list that is longer than two.
const KNOWN: [Number; 3] = [Constant(1), Constant(2), SizePlus(0)];

/// A random program of steps that is accepted on n qubits. Main calls procedure
/// 1, which goes on with shorter lists; procedure 2 is never called.
pub fn program_of_steps(random: &mut Random, n: u32) -> Program {
    let all: Vec<Number> = (1..=n.clamp(1, 32) as i16).map(Constant).collect();
    let call_1 = match random.below(3) {
        0 => case(1, call(1, &[1]), call(1, &[1])),
        _ => call(1, &[]),
    };
    let (place, onward) = onward(random);
    let body = row_with(random, &KNOWN, onward);
    let never_called = row_with(random, &KNOWN, Statement::Not(vec![], place));
    Program {
        main: row_with(random, &all, call_1),
        bodies: vec![choose(longer_than(2), body, not(1)), never_called],
    }
}

/// A self call of procedure 1 without this place, mostly from both branches of a
/// qcase on it.
fn onward(random: &mut Random) -> (Number, Statement) {
    let place = KNOWN[random.below(KNOWN.len())];
    let onward = Statement::Call(vec![place], 1);
    match random.below(3) {
        0 => (place, onward),
        _ => (place, qcase(vec![], place, onward.clone(), onward)),
    }
}

/// Some steps on these places, which all differ, and this one among them.
fn row_with(random: &mut Random, places: &[Number], one: Statement) -> Statement {
    let count = 2 + random.below(5);
    let mut steps = steps(random, places, count);
    let at = random.below(steps.len() + 1);
    steps.insert(at, one);
    row(random, steps)
}

/// So many steps on these places.
fn steps(random: &mut Random, places: &[Number], count: usize) -> Vec<Statement> {
    (0..count).map(|_| step(random, places)).collect()
}

/// A flip of one place, mostly where another one holds 0 or 1; there now and
/// then several steps on the places that are left.
fn step(random: &mut Random, places: &[Number]) -> Statement {
    let mut places = places.to_vec();
    random.shuffle(&mut places);
    let flip = |place| Statement::Not(vec![], place);
    match places[..] {
        [] => Statement::Skip,
        [place] => flip(place),
        [by, ref others @ ..] => {
            let inner = if random.chance(25) {
                let inner = steps(random, others, 2);
                row(random, inner)
            } else {
                flip(others[0])
            };
            match random.below(5) {
                0 => flip(by),
                1 | 2 => qcase(vec![], by, inner, Statement::Skip),
                _ => qcase(vec![], by, Statement::Skip, inner),
            }
        }
    }
}

/// The steps one after another, in a tree of sequences of any shape.
fn row(random: &mut Random, mut steps: Vec<Statement>) -> Statement {
    if steps.len() < 2 {
        return steps.pop().unwrap_or(Statement::Skip);
    }
    let rest = steps.split_off(1 + random.below(steps.len() - 1));
    let (first, second) = (row(random, steps), row(random, rest));
    sequence(first, second)
}
