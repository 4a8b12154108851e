//! The inputs that are worth changing further.

use crate::comparison::Class;
use crate::input::{Circuit, Input, Table};
use crate::invention::{changed_circuit, changed_table, fresh_circuit, fresh_table};
use foq_generator::Random;
use std::collections::BTreeSet;

/// One input of each class that was seen.
#[derive(Default)]
pub struct Corpus {
    seen: BTreeSet<Class>,
    tables: Vec<Table>,
    circuits: Vec<Circuit>,
}

impl Corpus {
    /// Keeps an input whose class was not seen before; says whether it does.
    pub fn keep(&mut self, input: &Input, class: Class) -> bool {
        let new = self.seen.insert(class);
        match input {
            Input::Table(table) if new => self.tables.push(table.clone()),
            Input::Circuit(circuit) if new => self.circuits.push(circuit.clone()),
            _ => {}
        }
        new
    }

    /// An input that is mostly a table, and mostly out of those that were kept.
    pub fn next(&self, random: &mut Random) -> Input {
        if random.chance(80) {
            Input::Table(self.next_table(random))
        } else {
            Input::Circuit(self.next_circuit(random))
        }
    }

    fn next_table(&self, random: &mut Random) -> Table {
        let Some(mut table) = chosen(random, &self.tables, |table| &table.bytes) else {
            return fresh_table(random);
        };
        for _ in 0..=random.below(3) {
            let other = &self.tables[random.below(self.tables.len())];
            table = changed_table(random, &table, other);
        }
        table
    }

    fn next_circuit(&self, random: &mut Random) -> Circuit {
        let Some(mut circuit) = chosen(random, &self.circuits, |circuit| &circuit.bytes) else {
            return fresh_circuit(random);
        };
        for _ in 0..=random.below(3) {
            circuit = changed_circuit(random, &circuit);
        }
        circuit
    }
}

/// The shorter of two that were kept, since short ones are soon compared; now
/// and then none.
fn chosen<T: Clone>(random: &mut Random, kept: &[T], bytes: fn(&T) -> &[u8]) -> Option<T> {
    if random.chance(25) {
        return None;
    }
    let two = [(); 2].map(|()| kept.get(random.below(kept.len())));
    let shorter = two.into_iter().flatten().min_by_key(|one| bytes(one).len());
    shorter.cloned()
}
