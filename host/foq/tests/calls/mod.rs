//! The procedures that a program's statements lead to.

use foq_reference::{Program, Statement};

/// Every procedure that a statement calls, in any branch.
fn called(statement: &Statement) -> Vec<usize> {
    match statement {
        Statement::Skip | Statement::Not { .. } => Vec::new(),
        Statement::Call { procedure, .. } => vec![*procedure],
        Statement::Sequence(first, second)
        | Statement::Qcase {
            zero: first,
            one: second,
            ..
        }
        | Statement::If {
            yes: first,
            no: second,
            ..
        } => [called(first), called(second)].concat(),
    }
}

/// The procedures that a statement of the program leads to, by one or more
/// calls.
pub fn reached_from(program: &Program, statement: &Statement) -> Vec<usize> {
    let mut reached = called(statement);
    let mut next = 0;
    while let Some(&via) = reached.get(next) {
        for to in called(&program.bodies[via - 1]) {
            if !reached.contains(&to) {
                reached.push(to);
            }
        }
        next += 1;
    }
    reached
}
