//! The tree of a program: what a table and a text both say.

/// A number: the constant alone, or a size and a constant.
#[derive(Clone, Copy, Debug, PartialEq, Eq)]
pub enum Number {
    /// Base 0.
    Constant(i16),
    /// Base 1: the size of the whole list.
    SizePlus(i16),
    /// Base 2: the size of what the removals before it in its statement left; in
    /// a comparison that of the whole list.
    LeftPlus(i16),
}

/// The entry that a NOT or a qcase touches.
#[derive(Clone, Debug, PartialEq, Eq)]
pub struct Qubit {
    /// What is removed from the whole list first, one after the other.
    pub removals: Vec<Number>,
    /// The position in what is left.
    pub position: Number,
}

/// A statement, kinds 0 to 5.
#[derive(Clone, Debug, PartialEq, Eq)]
pub enum Statement {
    /// Kind 0.
    Skip,
    /// Kind 1.
    Not(Qubit),
    /// Kind 2.
    Sequence(Box<Statement>, Box<Statement>),
    /// Kind 3: the condition, yes and no.
    If(Condition, Box<Statement>, Box<Statement>),
    /// Kind 4: the qubit, zero and one.
    Qcase(Qubit, Box<Statement>, Box<Statement>),
    /// Kind 5.
    Call {
        /// The procedure; the first is 1.
        procedure: u8,
        /// What is removed from the whole list, one after the other.
        removals: Vec<Number>,
    },
}

/// How a comparison compares.
#[derive(Clone, Copy, Debug, PartialEq, Eq)]
pub enum Comparison {
    /// Kind 6, a > b.
    Greater,
    /// Kind 7, a ≥ b.
    AtLeast,
    /// Kind 8, a = b.
    Equal,
}

/// A condition, kinds 6 to 11.
#[derive(Clone, Debug, PartialEq, Eq)]
pub enum Condition {
    /// Kinds 6 to 8.
    Compare(Comparison, Number, Number),
    /// Kind 9.
    And(Box<Condition>, Box<Condition>),
    /// Kind 10.
    Or(Box<Condition>, Box<Condition>),
    /// Kind 11.
    Not(Box<Condition>),
}

/// The main statement and the bodies of the procedures.
#[derive(Clone, Debug, PartialEq, Eq)]
pub struct Program {
    /// The main statement.
    pub main: Statement,
    /// The bodies; procedure 1 stands first.
    pub bodies: Vec<Statement>,
}

/// At most so many procedures.
pub const MOST_PROCEDURES: usize = 16;
/// At most so many removals at one statement.
pub const MOST_REMOVALS: usize = 8;
