//! Document 01, "The program table": a program written as the bytes of its
//! table, the way back from the reader. Document 02, S-5, asks for it.

use crate::table::{Condition, Number, Program, Statement, EDITION, MAPS, REMOVALS};

/// "Byte 0 is the edition, 1. Byte 1 is p, the number of procedures, 0 to 16.
/// Then come the main statement and the bodies of procedures 1 to p, each a
/// tree in preorder".
///
/// Reading what is written for a program that was read gives that program. Of
/// another program nothing is judged: the number of its bodies, counts of
/// removals and procedures are written as their lowest eight bits.
#[must_use]
pub fn table_bytes(program: &Program) -> Vec<u8> {
    let mut bytes = vec![EDITION, program.bodies.len() as u8];
    bytes.extend(statement(&program.main));
    for body in &program.bodies {
        bytes.extend(statement(body));
    }
    bytes
}

/// A record of kind 0 to 5 and then its children: "a record's children follow
/// it, first child first".
fn statement(of: &Statement) -> Vec<u8> {
    match of {
        Statement::Skip => head(0, &[]),
        Statement::Not { removals, position } => [head(1, removals), number(*position)].concat(),
        Statement::Sequence(first, second) => {
            [head(2, &[]), statement(first), statement(second)].concat()
        }
        Statement::If {
            condition: by,
            yes,
            no,
        } => [head(3, &[]), condition(by), statement(yes), statement(no)].concat(),
        Statement::Qcase {
            removals,
            position,
            zero,
            one,
        } => {
            let record = [head(4, removals), number(*position)].concat();
            [record, statement(zero), statement(one)].concat()
        }
        Statement::Call {
            removals,
            procedure,
        } => [head(5, removals), vec![*procedure as u8]].concat(),
    }
}

/// A record of kind 6 to 11 and then its children.
fn condition(of: &Condition) -> Vec<u8> {
    match of {
        Condition::Greater(a, b) => [head(6, &[]), number(*a), number(*b)].concat(),
        Condition::AtLeast(a, b) => [head(7, &[]), number(*a), number(*b)].concat(),
        Condition::Equal(a, b) => [head(8, &[]), number(*a), number(*b)].concat(),
        Condition::And(first, second) => {
            [head(9, &[]), condition(first), condition(second)].concat()
        }
        Condition::Or(first, second) => {
            [head(10, &[]), condition(first), condition(second)].concat()
        }
        Condition::Not(inner) => [head(11, &[]), condition(inner)].concat(),
    }
}

/// "A record is a map byte, a kind byte, then only the fields whose bit stands
/// in the map, lowest bit first": the map, the kind and the removals, which are
/// the first field. "Bit 0 is optional for kinds 1, 4 and 5; every other bit is
/// required or forbidden", so bit 0 stands only where there are removals.
fn head(kind: u8, removals: &[Number]) -> Vec<u8> {
    let (required, _) = MAPS[usize::from(kind)];
    if removals.is_empty() {
        return vec![required, kind];
    }
    let mut head = vec![required | REMOVALS, kind, removals.len() as u8];
    head.extend(removals.iter().flat_map(|removal| number(*removal)));
    head
}

/// "A number is a base byte and a signed 16-bit constant, little-endian."
fn number(of: Number) -> Vec<u8> {
    let (base, constant) = match of {
        Number::Constant(constant) => (0, constant),
        Number::SizePlus(constant) => (1, constant),
        Number::LeftPlus(constant) => (2, constant),
    };
    let [low, high] = constant.to_le_bytes();
    vec![base, low, high]
}
