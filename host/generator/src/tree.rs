//! Trees of programs and their bytes (document 01, "The program table").

/// A number: the constant alone, or a constant and the size of the whole list
/// or of what the removals already done in the record left of it.
#[derive(Clone, Copy, Debug, PartialEq, Eq)]
pub enum Number {
    /// Base 0.
    Constant(i16),
    /// Base 1.
    SizePlus(i16),
    /// Base 2.
    LeftPlus(i16),
}

/// A statement, kinds 0 to 5. No removals means that map bit 0 is not set.
#[derive(Clone, Debug, PartialEq, Eq)]
pub enum Statement {
    /// Kind 0.
    Skip,
    /// Kind 1: removals and position a.
    Not(Vec<Number>, Number),
    /// Kind 2.
    Sequence(Box<Statement>, Box<Statement>),
    /// Kind 3: the condition, yes and no.
    If(Condition, Box<Statement>, Box<Statement>),
    /// Kind 4: removals, position a, zero and one.
    Qcase(Vec<Number>, Number, Box<Statement>, Box<Statement>),
    /// Kind 5: removals and the procedure byte.
    Call(Vec<Number>, u8),
}

/// A condition, kinds 6 to 11.
#[derive(Clone, Debug, PartialEq, Eq)]
pub enum Condition {
    /// Kind 6, a > b.
    Greater(Number, Number),
    /// Kind 7, a ≥ b.
    AtLeast(Number, Number),
    /// Kind 8, a = b.
    Equal(Number, Number),
    /// Kind 9.
    And(Box<Condition>, Box<Condition>),
    /// Kind 10.
    Or(Box<Condition>, Box<Condition>),
    /// Kind 11.
    Not(Box<Condition>),
}

/// The main statement and the bodies; procedure 1 stands first.
#[derive(Clone, Debug, PartialEq, Eq)]
pub struct Program {
    /// The main statement.
    pub main: Statement,
    /// The bodies.
    pub bodies: Vec<Statement>,
}

/// A sequence of two statements.
#[must_use]
pub fn sequence(first: Statement, second: Statement) -> Statement {
    Statement::Sequence(Box::new(first), Box::new(second))
}

/// The statements one after another, in a tree of sequences that is as low as
/// can be.
#[must_use]
pub fn in_order(mut statements: Vec<Statement>) -> Statement {
    match statements.len() {
        0 => Statement::Skip,
        1 => statements.remove(0),
        length => {
            let rest = statements.split_off(length / 2);
            sequence(in_order(statements), in_order(rest))
        }
    }
}

/// An if.
#[must_use]
pub fn choose(condition: Condition, yes: Statement, no: Statement) -> Statement {
    Statement::If(condition, Box::new(yes), Box::new(no))
}

/// A qcase.
#[must_use]
pub fn qcase(
    removals: Vec<Number>,
    position: Number,
    zero: Statement,
    one: Statement,
) -> Statement {
    Statement::Qcase(removals, position, Box::new(zero), Box::new(one))
}

/// A NOT at a position of the whole list.
#[must_use]
pub fn not(position: i16) -> Statement {
    Statement::Not(vec![], Number::Constant(position))
}

/// A qcase on a position of the whole list.
#[must_use]
pub fn case(position: i16, zero: Statement, one: Statement) -> Statement {
    qcase(vec![], Number::Constant(position), zero, one)
}

/// A call that removes these positions, one after the other.
#[must_use]
pub fn call(procedure: u8, removed: &[i16]) -> Statement {
    let removed = removed.iter().map(|&position| Number::Constant(position));
    Statement::Call(removed.collect(), procedure)
}

/// Whether the whole list is longer than this.
#[must_use]
pub fn longer_than(size: i16) -> Condition {
    Condition::Greater(Number::SizePlus(0), Number::Constant(size))
}

/// The table of a main statement and bodies; procedure 1 stands first.
#[must_use]
pub fn table(main: Statement, bodies: &[Statement]) -> Vec<u8> {
    let bodies = bodies.to_vec();
    encode(&Program { main, bodies })
}

/// The table of a procedure 1 that main calls with its whole list.
#[must_use]
pub fn procedure(body: Statement) -> Vec<u8> {
    table(call(1, &[]), &[body])
}

/// The table of a program. The number of procedures and the counts of
/// removals are written as their lowest eight bits.
#[must_use]
pub fn encode(program: &Program) -> Vec<u8> {
    let mut table = vec![1, program.bodies.len() as u8];
    statement(&mut table, &program.main);
    for body in &program.bodies {
        statement(&mut table, body);
    }
    table
}

/// Writes a statement's record and its children.
fn statement(table: &mut Vec<u8>, of: &Statement) {
    match of {
        Statement::Skip => table.extend([0, 0]),
        Statement::Not(removed, position) => {
            head(table, 2, 1, removed);
            number(table, *position);
        }
        Statement::Sequence(first, second) => {
            table.extend([0, 2]);
            statement(table, first);
            statement(table, second);
        }
        Statement::If(by, yes, no) => {
            table.extend([0, 3]);
            condition(table, by);
            statement(table, yes);
            statement(table, no);
        }
        Statement::Qcase(removed, position, zero, one) => {
            head(table, 2, 4, removed);
            number(table, *position);
            statement(table, zero);
            statement(table, one);
        }
        Statement::Call(removed, procedure) => {
            head(table, 8, 5, removed);
            table.push(*procedure);
        }
    }
}

/// Writes the map, the kind and the removals of a record.
fn head(table: &mut Vec<u8>, map: u8, kind: u8, removals: &[Number]) {
    if removals.is_empty() {
        table.extend([map, kind]);
        return;
    }
    table.extend([map | 1, kind, removals.len() as u8]);
    for &removal in removals {
        number(table, removal);
    }
}

/// Writes a condition's record and its children.
fn condition(table: &mut Vec<u8>, of: &Condition) {
    match of {
        Condition::Greater(a, b) => comparison(table, 6, *a, *b),
        Condition::AtLeast(a, b) => comparison(table, 7, *a, *b),
        Condition::Equal(a, b) => comparison(table, 8, *a, *b),
        Condition::And(first, second) => {
            table.extend([0, 9]);
            condition(table, first);
            condition(table, second);
        }
        Condition::Or(first, second) => {
            table.extend([0, 10]);
            condition(table, first);
            condition(table, second);
        }
        Condition::Not(inner) => {
            table.extend([0, 11]);
            condition(table, inner);
        }
    }
}

/// Writes a comparison's record.
fn comparison(table: &mut Vec<u8>, kind: u8, a: Number, b: Number) {
    table.extend([6, kind]);
    number(table, a);
    number(table, b);
}

/// Writes a base byte and a constant.
fn number(table: &mut Vec<u8>, of: Number) {
    let (base, constant) = match of {
        Number::Constant(constant) => (0, constant),
        Number::SizePlus(constant) => (1, constant),
        Number::LeftPlus(constant) => (2, constant),
    };
    table.push(base);
    table.extend(constant.to_le_bytes());
}
