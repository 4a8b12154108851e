//! The numbers of a program, and the fields that they stand in.

use crate::tree::{Condition, Number, Program, Statement};

/// A field that holds a number, by the kind byte of its record.
#[derive(Clone, Copy, Debug, PartialEq, Eq, PartialOrd, Ord)]
pub enum Field {
    /// A removal of kind 1, 4 or 5, and its turn; the first one's is 1.
    Removal(u8, usize),
    /// Number a of kind 1, 4, 6, 7 or 8.
    A(u8),
    /// Number b of kind 6, 7 or 8.
    B(u8),
}

/// "removals: a count byte 1 to 8".
pub(crate) const MOST_REMOVALS: usize = 8;

impl Field {
    /// Every field there is.
    #[must_use]
    pub fn all() -> Vec<Field> {
        let mut fields = Vec::new();
        for kind in [1, 4, 5] {
            fields.extend((1..=MOST_REMOVALS).map(|turn| Field::Removal(kind, turn)));
        }
        fields.extend([1, 4, 6, 7, 8].map(Field::A));
        fields.extend([6, 7, 8].map(Field::B));
        fields
    }
}

/// A number where it stands.
#[derive(Debug)]
pub struct Spot<'p> {
    /// Its field.
    pub field: Field,
    /// The removals of its record that are done before it counts.
    pub removals_before: usize,
    /// The number.
    pub number: &'p mut Number,
}

/// Shows each statement of a program, one before its parts.
pub fn each_statement(program: &mut Program, show: &mut dyn FnMut(&mut Statement)) {
    in_statement(&mut program.main, show);
    for body in &mut program.bodies {
        in_statement(body, show);
    }
}

fn in_statement(of: &mut Statement, show: &mut dyn FnMut(&mut Statement)) {
    show(of);
    match of {
        Statement::Skip | Statement::Not(..) | Statement::Call(..) => {}
        Statement::Sequence(first, second)
        | Statement::If(_, first, second)
        | Statement::Qcase(_, _, first, second) => {
            in_statement(first, show);
            in_statement(second, show);
        }
    }
}

/// Shows each number of a program.
pub fn each_number(program: &mut Program, show: &mut dyn FnMut(Spot)) {
    each_statement(program, &mut |statement| match statement {
        Statement::Skip | Statement::Sequence(..) => {}
        Statement::Not(removals, position) => in_touch(1, removals, position, show),
        Statement::Qcase(removals, position, ..) => in_touch(4, removals, position, show),
        Statement::Call(removals, _) => in_removals(5, removals, show),
        Statement::If(condition, ..) => in_condition(condition, show),
    });
}

fn in_removals(kind: u8, removals: &mut [Number], show: &mut dyn FnMut(Spot)) {
    for (removals_before, number) in removals.iter_mut().enumerate() {
        show(Spot {
            field: Field::Removal(kind, removals_before + 1),
            removals_before,
            number,
        });
    }
}

fn in_touch(kind: u8, removals: &mut [Number], position: &mut Number, show: &mut dyn FnMut(Spot)) {
    in_removals(kind, removals, show);
    show(Spot {
        field: Field::A(kind),
        removals_before: removals.len(),
        number: position,
    });
}

fn in_condition(of: &mut Condition, show: &mut dyn FnMut(Spot)) {
    match of {
        Condition::Greater(a, b) => in_comparison(6, a, b, show),
        Condition::AtLeast(a, b) => in_comparison(7, a, b, show),
        Condition::Equal(a, b) => in_comparison(8, a, b, show),
        Condition::And(first, second) | Condition::Or(first, second) => {
            in_condition(first, show);
            in_condition(second, show);
        }
        Condition::Not(inner) => in_condition(inner, show),
    }
}

fn in_comparison(kind: u8, a: &mut Number, b: &mut Number, show: &mut dyn FnMut(Spot)) {
    for (field, number) in [(Field::A(kind), a), (Field::B(kind), b)] {
        show(Spot {
            field,
            removals_before: 0,
            number,
        });
    }
}
