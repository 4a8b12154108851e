//! What the inverse of a program turns and keeps: where its sequences stand, and
//! the bases of its removals.

use crate::calls::reached_from;
use foq_reference::{holds, Number, Program, Statement};
use std::collections::BTreeSet;

/// The names of classes.
pub type Classes = BTreeSet<&'static str>;

/// The classes that a program on n qubits shows.
pub fn classes(program: &Program, n: u32) -> Classes {
    let mut walk = Walk {
        size: Some(n as usize),
        shown: Classes::new(),
    };
    walk.statement(&program.main, &Classes::new());
    walk.size = None;
    let reached = reached_from(program, &program.main);
    for (procedure, body) in (1..).zip(&program.bodies) {
        let mut around = Classes::new();
        if !reached.contains(&procedure) {
            around.insert("sequence that main never comes to");
        }
        walk.statement(body, &around);
    }
    walk.shown
}

/// A walk through the trees of a program.
struct Walk {
    /// The size of the whole list where it is known, that is, in main.
    size: Option<usize>,
    shown: Classes,
}

impl Walk {
    /// Goes through a statement. A sequence here shows the classes of all that
    /// is around.
    fn statement(&mut self, of: &Statement, around: &Classes) {
        match of {
            Statement::Skip => {}
            Statement::Not { removals, .. } | Statement::Call { removals, .. } => {
                self.removals(removals);
            }
            Statement::Sequence(first, second) => {
                self.shown.insert("sequence");
                self.shown.extend(around);
                let inner = with(around, "sequence in a sequence");
                self.statement(first, &inner);
                self.statement(second, &inner);
            }
            Statement::If { condition, yes, no } => {
                let inner = with(around, "sequence in an if");
                let chosen = self.size.map(|size| holds(condition, size));
                self.branch(yes, &inner, chosen == Some(false));
                self.branch(no, &inner, chosen == Some(true));
            }
            Statement::Qcase {
                removals,
                zero,
                one,
                ..
            } => {
                self.removals(removals);
                let inner = with(around, "sequence in a qcase");
                self.statement(zero, &inner);
                self.statement(one, &inner);
            }
        }
    }

    /// Goes through a branch of an if, which the condition may leave out.
    fn branch(&mut self, of: &Statement, around: &Classes, left_out: bool) {
        if left_out {
            let around = with(around, "sequence in a branch not chosen");
            self.statement(of, &around);
        } else {
            self.statement(of, around);
        }
    }

    fn removals(&mut self, removals: &[Number]) {
        let bases = removals.iter().map(|removal| match removal {
            Number::Constant(_) => "removal of base 0",
            Number::SizePlus(_) => "removal of base 1",
            Number::LeftPlus(_) => "removal of base 2",
        });
        self.shown.extend(bases);
    }
}

/// The classes and one more.
fn with(classes: &Classes, more: &'static str) -> Classes {
    let mut all = classes.clone();
    all.insert(more);
    all
}
