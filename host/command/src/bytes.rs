//! A tree as the bytes of a table (document 01, "The program table", and base 2
//! of document 02), and back.

use crate::tree::{
    Comparison, Condition, Number, Program, Qubit, Statement, MOST_PROCEDURES, MOST_REMOVALS,
};

/// The edition of tables.
const EDITION: u8 = 1;
/// At most so many records in a table.
const MOST_RECORDS: usize = 255;
/// A tree is at most so many records deep.
const DEEPEST: usize = 32;

/// Map bit 0, removals.
const REMOVALS: u8 = 1;
/// Map bit 1, number a.
const A: u8 = 2;
/// Map bit 2, number b.
const B: u8 = 4;
/// Map bit 3, a procedure byte.
const PROCEDURE: u8 = 8;

/// The map of a comparison.
const A_B: u8 = A | B;
/// The map of a NOT or qcase with removals.
const REMOVALS_A: u8 = REMOVALS | A;
/// The map of a call with removals.
const REMOVALS_PROCEDURE: u8 = REMOVALS | PROCEDURE;

/// The table of a program whose procedures and removals keep to their limits,
/// as every parsed and every decoded program does.
#[must_use]
pub fn encode(program: &Program) -> Vec<u8> {
    let mut table = vec![EDITION, program.bodies.len() as u8];
    put_statement(&mut table, &program.main);
    for body in &program.bodies {
        put_statement(&mut table, body);
    }
    table
}

/// A statement's record, then its children's.
fn put_statement(table: &mut Vec<u8>, statement: &Statement) {
    match statement {
        Statement::Skip => table.extend([0, 0]),
        Statement::Not(qubit) => put_qubit(table, 1, qubit),
        Statement::Sequence(first, second) => {
            table.extend([0, 2]);
            put_statement(table, first);
            put_statement(table, second);
        }
        Statement::If(condition, yes, no) => {
            table.extend([0, 3]);
            put_condition(table, condition);
            put_statement(table, yes);
            put_statement(table, no);
        }
        Statement::Qcase(qubit, zero, one) => {
            put_qubit(table, 4, qubit);
            put_statement(table, zero);
            put_statement(table, one);
        }
        Statement::Call {
            procedure,
            removals,
        } => {
            put_head(table, PROCEDURE, 5, removals);
            table.push(*procedure);
        }
    }
}

/// The record of a kind that touches a qubit.
fn put_qubit(table: &mut Vec<u8>, kind: u8, qubit: &Qubit) {
    put_head(table, A, kind, &qubit.removals);
    put_number(table, qubit.position);
}

/// Map, kind and removals.
fn put_head(table: &mut Vec<u8>, map: u8, kind: u8, removals: &[Number]) {
    if removals.is_empty() {
        table.extend([map, kind]);
    } else {
        table.extend([map | REMOVALS, kind, removals.len() as u8]);
    }
    for &removal in removals {
        put_number(table, removal);
    }
}

/// A condition's record, then its children's.
fn put_condition(table: &mut Vec<u8>, condition: &Condition) {
    match condition {
        Condition::Compare(comparison, a, b) => {
            let kind = match comparison {
                Comparison::Greater => 6,
                Comparison::AtLeast => 7,
                Comparison::Equal => 8,
            };
            table.extend([A_B, kind]);
            put_number(table, *a);
            put_number(table, *b);
        }
        Condition::And(first, second) => put_conditions(table, 9, [first, second]),
        Condition::Or(first, second) => put_conditions(table, 10, [first, second]),
        Condition::Not(inner) => put_conditions(table, 11, [inner]),
    }
}

/// A record of conditions.
fn put_conditions<const COUNT: usize>(
    table: &mut Vec<u8>,
    kind: u8,
    children: [&Condition; COUNT],
) {
    table.extend([0, kind]);
    for child in children {
        put_condition(table, child);
    }
}

/// A base byte and a constant.
fn put_number(table: &mut Vec<u8>, number: Number) {
    let (base, constant) = match number {
        Number::Constant(constant) => (0, constant),
        Number::SizePlus(constant) => (1, constant),
        Number::LeftPlus(constant) => (2, constant),
    };
    table.push(base);
    table.extend(constant.to_le_bytes());
}

/// The program of a table; none exactly where documents 01 and 02 refuse the
/// table with one of the numbers 1 to 8. Which of them, the verdict says.
#[must_use]
pub fn decode(table: &[u8]) -> Option<Program> {
    let mut rest = Rest {
        bytes: table,
        procedures: 0,
        records: 0,
    };
    let [EDITION, procedures] = rest.take()? else {
        return None;
    };
    if usize::from(procedures) > MOST_PROCEDURES {
        return None;
    }
    rest.procedures = procedures;
    let main = rest.statement(1)?;
    let bodies = (0..procedures)
        .map(|_| rest.statement(1))
        .collect::<Option<_>>()?;
    rest.bytes.is_empty().then_some(Program { main, bodies })
}

/// The rest of a table.
struct Rest<'a> {
    bytes: &'a [u8],
    /// How many procedures the table has.
    procedures: u8,
    /// How many records have been read.
    records: usize,
}

impl Rest<'_> {
    /// The next bytes.
    fn take<const COUNT: usize>(&mut self) -> Option<[u8; COUNT]> {
        let (taken, rest) = self.bytes.split_first_chunk()?;
        self.bytes = rest;
        Some(*taken)
    }

    /// Kind and map of a record that is so deep in its tree.
    fn head(&mut self, depth: usize) -> Option<(u8, u8)> {
        let [map, kind] = self.take()?;
        self.records += 1;
        (depth <= DEEPEST && self.records <= MOST_RECORDS).then_some((kind, map))
    }

    /// A statement and its children.
    fn statement(&mut self, depth: usize) -> Option<Statement> {
        let (kind, map) = self.head(depth)?;
        let removals = map & REMOVALS != 0;
        Some(match (kind, map) {
            (0, 0) => Statement::Skip,
            (1, A | REMOVALS_A) => Statement::Not(self.qubit(removals)?),
            (2, 0) => Statement::Sequence(self.child(depth)?, self.child(depth)?),
            (3, 0) => Statement::If(
                self.condition(depth + 1)?,
                self.child(depth)?,
                self.child(depth)?,
            ),
            (4, A | REMOVALS_A) => Statement::Qcase(
                self.qubit(removals)?,
                self.child(depth)?,
                self.child(depth)?,
            ),
            (5, PROCEDURE | REMOVALS_PROCEDURE) => Statement::Call {
                removals: self.removals(removals)?,
                procedure: self.procedure()?,
            },
            _ => return None,
        })
    }

    /// A statement below one that is so deep.
    fn child(&mut self, depth: usize) -> Option<Box<Statement>> {
        self.statement(depth + 1).map(Box::new)
    }

    /// A condition and its children.
    fn condition(&mut self, depth: usize) -> Option<Condition> {
        Some(match self.head(depth)? {
            (6, A_B) => self.comparison(Comparison::Greater)?,
            (7, A_B) => self.comparison(Comparison::AtLeast)?,
            (8, A_B) => self.comparison(Comparison::Equal)?,
            (9, 0) => Condition::And(self.part(depth)?, self.part(depth)?),
            (10, 0) => Condition::Or(self.part(depth)?, self.part(depth)?),
            (11, 0) => Condition::Not(self.part(depth)?),
            _ => return None,
        })
    }

    /// A condition below one that is so deep.
    fn part(&mut self, depth: usize) -> Option<Box<Condition>> {
        self.condition(depth + 1).map(Box::new)
    }

    /// The numbers of a comparison.
    fn comparison(&mut self, comparison: Comparison) -> Option<Condition> {
        Some(Condition::Compare(
            comparison,
            self.number()?,
            self.number()?,
        ))
    }

    /// Removals, where there are any, and a position.
    fn qubit(&mut self, removals: bool) -> Option<Qubit> {
        Some(Qubit {
            removals: self.removals(removals)?,
            position: self.number()?,
        })
    }

    /// Removals, where there are any.
    fn removals(&mut self, any: bool) -> Option<Vec<Number>> {
        if !any {
            return Some(Vec::new());
        }
        let [count] = self.take()?;
        if !(1..=MOST_REMOVALS).contains(&usize::from(count)) {
            return None;
        }
        (0..count).map(|_| self.number()).collect()
    }

    /// A base byte and a constant.
    fn number(&mut self) -> Option<Number> {
        let [base, low, high] = self.take()?;
        let constant = i16::from_le_bytes([low, high]);
        match base {
            0 => Some(Number::Constant(constant)),
            1 => Some(Number::SizePlus(constant)),
            2 => Some(Number::LeftPlus(constant)),
            _ => None,
        }
    }

    /// A procedure byte.
    fn procedure(&mut self) -> Option<u8> {
        let [procedure] = self.take()?;
        (1..=self.procedures)
            .contains(&procedure)
            .then_some(procedure)
    }
}
