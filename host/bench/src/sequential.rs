//! The number of gates that branch sequentialization would give, strategy (a)
//! of source 002's figure 3: every call is emitted by itself, and no two calls
//! of different branches share a body. As in the emission, a call flips its
//! ancilla before the body and after it. So a NOT is one gate, a call two and
//! its body's, and a qcase has the gates of both branches.
//!
//! What a statement decides depends on the length of its list alone, so each
//! procedure is counted once for each length, however often it is called.

use foq_reference::{holds, remaining, Program, Statement};
use std::collections::BTreeMap;

/// Some list of this length.
fn list_of(length: usize) -> Vec<u8> {
    (0..length).map(|entry| entry as u8).collect()
}

/// The gates of an accepted program on n qubits.
pub fn gates(program: &Program, n: usize) -> u128 {
    let mut counter = Counter {
        program,
        counted: BTreeMap::new(),
    };
    counter.gates(&program.main, n)
}

/// The gates of bodies that were counted, by procedure and length.
struct Counter<'p> {
    program: &'p Program,
    counted: BTreeMap<(usize, usize), u128>,
}

impl Counter<'_> {
    /// The gates of a statement whose whole list has this length.
    fn gates(&mut self, statement: &Statement, length: usize) -> u128 {
        match statement {
            Statement::Skip => 0,
            Statement::Not { .. } => 1,
            Statement::Sequence(first, second)
            | Statement::Qcase {
                zero: first,
                one: second,
                ..
            } => self.gates(first, length) + self.gates(second, length),
            Statement::If { condition, yes, no } => {
                self.gates(if holds(condition, length) { yes } else { no }, length)
            }
            Statement::Call {
                removals,
                procedure,
            } => match remaining(&list_of(length), removals).len() {
                0 => 0,
                left => 2 + self.body(*procedure, left),
            },
        }
    }

    /// The gates of a procedure's body.
    fn body(&mut self, procedure: usize, length: usize) -> u128 {
        if let Some(&gates) = self.counted.get(&(procedure, length)) {
            return gates;
        }
        let gates = self.gates(&self.program.bodies[procedure - 1], length);
        self.counted.insert((procedure, length), gates);
        gates
    }
}

#[cfg(test)]
mod tests {
    use super::gates;
    use foq_generator::programs::{program, LARGE, MERGING, SMALL};
    use foq_generator::tree::encode;
    use foq_generator::{Random, PAIRS};
    use foq_reference::{emission, read_table, LONGEST_CIRCUIT};

    #[test]
    fn an_emission_that_merges_nothing_has_these_gates() {
        let mut random = Random::from_seed(92);
        let mut equal = 0;
        for turn in 0..6_000 {
            let shape = [SMALL, MERGING, LARGE][turn % 3];
            let program = read_table(&encode(&program(&mut random, &shape)));
            let n = 1 + random.below(8);
            let emitted = program
                .clone()
                .and_then(|program| emission(&program, n as u32, LONGEST_CIRCUIT));
            match emitted {
                Ok(emitted) if emitted.tally.entries == 0 && emitted.tally.chains > 0 => {
                    let counted = gates(&program.unwrap(), n);
                    assert_eq!(counted, emitted.gates.len() as u128);
                    equal += 1;
                }
                _ => {}
            }
        }
        println!("{equal}");
        assert!(equal > 2_000);
    }

    #[test]
    fn the_gates_of_pairs_double_with_every_two_qubits() {
        let program = read_table(PAIRS).unwrap();
        // The first call has two gates and its body's; a body of two calls.
        let counted = [1, 3, 5, 7].map(|n| gates(&program, n));
        assert_eq!(counted, [3, 2 + 2 * 3, 2 + 2 * 8, 2 + 2 * 18]);
    }
}
