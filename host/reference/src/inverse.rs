//! Document 02, S-5, "The inverse program, written as a table."

use crate::operations::accepted;
use crate::refusal;
use crate::table::{Program, Statement};
use crate::writing::table_bytes;

/// "Write, from an accepted table, the table whose run undoes it": the bytes
/// that a room of this length holds on success. They are as many as the source
/// table's. "The operation takes n, the table and a room, and no workspace".
///
/// # Errors
/// The refusals 1 to 12 in the order of every operation, then "24, the table's
/// room is shorter than the source table, after 12."
pub fn inverse(table: &[u8], n: u32, room: usize) -> Result<Vec<u8>, u32> {
    let (program, _) = accepted(table, n)?;
    if room < table.len() {
        return Err(refusal::TABLE_ROOM);
    }
    Ok(table_bytes(&inverse_program(&program)))
}

/// "sequences turned round, everything else kept": in main and in every body,
/// whether or not main reaches it. No program is judged here.
#[must_use]
pub fn inverse_program(program: &Program) -> Program {
    Program {
        main: turned(&program.main),
        bodies: program.bodies.iter().map(turned).collect(),
    }
}

/// A statement with each of its sequences turned round, in branches that no if
/// chooses too: the second part, itself turned, comes first.
fn turned(statement: &Statement) -> Statement {
    let part = |part: &Statement| Box::new(turned(part));
    match statement {
        Statement::Skip | Statement::Not { .. } | Statement::Call { .. } => statement.clone(),
        Statement::Sequence(first, second) => Statement::Sequence(part(second), part(first)),
        Statement::If { condition, yes, no } => Statement::If {
            condition: condition.clone(),
            yes: part(yes),
            no: part(no),
        },
        Statement::Qcase {
            removals,
            position,
            zero,
            one,
        } => Statement::Qcase {
            removals: removals.clone(),
            position: *position,
            zero: part(zero),
            one: part(one),
        },
    }
}
