//! The later calls to the bodies of a program's chains, and the swaps that
//! document 01 asks for at each. Both are found without an emission: calls by a
//! walk through the program, swaps by looking at every wire for a qubit.

use crate::calls::reached_from;
use foq_reference::{holds, remaining, Program, Statement};
use std::cmp::Reverse;

/// A later call to a body.
pub struct LaterCall {
    /// The list of the body's first call.
    pub first: Vec<u8>,
    /// Its own list.
    pub later: Vec<u8>,
}

/// What is done for one k.
#[derive(Clone, Copy)]
pub struct Swap {
    /// The k-th qubit of the later list.
    pub qubit: u8,
    /// The wire now holding it.
    pub from: u8,
    /// The k-th wire of the first list.
    pub to: u8,
}

impl Swap {
    /// Its two wires, the lower one first.
    pub fn wires(self) -> (u8, u8) {
        (self.from.min(self.to), self.from.max(self.to))
    }
}

impl LaterCall {
    /// The swaps, or none where a wire holds its qubit already, for k = 1 up
    /// to the length.
    pub fn swaps(&self) -> Vec<Option<Swap>> {
        // "every qubit on the wire its list names"
        let mut held: Vec<u8> = (0..=32).collect();
        let in_turn = self.later.iter().zip(&self.first);
        let swaps = in_turn.map(|(&qubit, &to)| {
            let from = (0..=32u8).find(|&wire| held[usize::from(wire)] == qubit);
            let from = from.unwrap();
            held.swap(from.into(), to.into());
            (from != to).then_some(Swap { qubit, from, to })
        });
        swaps.collect()
    }
}

/// The calls with nonempty lists that an accepted statement comes to, in the
/// order in which a left part has them.
fn calls(statement: &Statement, list: &[u8]) -> Vec<(usize, Vec<u8>)> {
    match statement {
        Statement::Skip | Statement::Not { .. } => Vec::new(),
        Statement::Sequence(first, second)
        | Statement::Qcase {
            zero: first,
            one: second,
            ..
        } => [calls(first, list), calls(second, list)].concat(),
        Statement::If { condition, yes, no } => {
            let chosen = if holds(condition, list.len()) {
                yes
            } else {
                no
            };
            calls(chosen, list)
        }
        Statement::Call {
            removals,
            procedure,
        } => match remaining(list, removals) {
            left if left.is_empty() => Vec::new(),
            left => vec![(*procedure, left)],
        },
    }
}

/// A walk through the chains of an accepted program.
struct Walk<'p> {
    program: &'p Program,
    /// By procedure, the procedures that it reaches.
    reached: Vec<Vec<usize>>,
    met: Vec<LaterCall>,
}

impl Walk<'_> {
    fn is_recursive(&self, from: usize, to: usize) -> bool {
        self.reached[to - 1].contains(&from)
    }

    /// Goes through the bodies of a chain: "The longest list goes first", and
    /// "Bodies of equal list length are now emitted in order of procedure
    /// number, lowest first."
    fn chain(&mut self, procedure: usize, list: Vec<u8>) {
        let mut waiting = vec![(procedure, list)];
        while !waiting.is_empty() {
            // The one whose turn it is stands last.
            waiting.sort_by_key(|(procedure, list)| (list.len(), Reverse(*procedure)));
            let (own, list) = waiting.pop().unwrap();
            for (procedure, list) in calls(&self.program.bodies[own - 1], &list) {
                if !self.is_recursive(own, procedure) {
                    self.chain(procedure, list);
                    continue;
                }
                let same =
                    |pair: &&(usize, Vec<u8>)| pair.0 == procedure && pair.1.len() == list.len();
                match waiting.iter().find(same) {
                    Some((_, first)) => self.met.push(LaterCall {
                        first: first.clone(),
                        later: list,
                    }),
                    None => waiting.push((procedure, list)),
                }
            }
        }
    }
}

/// The later calls of an accepted program on n qubits, each as often as its
/// chain is emitted.
pub fn later_calls(program: &Program, n: u8) -> Vec<LaterCall> {
    let bodies = program.bodies.iter();
    let mut walk = Walk {
        program,
        reached: bodies.map(|body| reached_from(program, body)).collect(),
        met: Vec::new(),
    };
    let all: Vec<u8> = (1..=n).collect();
    for (procedure, list) in calls(&program.main, &all) {
        walk.chain(procedure, list);
    }
    walk.met
}
