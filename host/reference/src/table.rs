//! Document 01, "The program table": the tree of a program and its reader.

use crate::refusal;

/// "A number is a base byte and a signed 16-bit constant, little-endian."
#[derive(Clone, Copy, Debug, PartialEq, Eq)]
pub enum Number {
    /// "Base 0 is the constant alone".
    Constant(i16),
    /// "base 1 adds the size of the procedure's whole list".
    SizePlus(i16),
    /// Document 02, S-2: "Base 2 of a number adds the size of the list left by
    /// the removals already done in that record".
    LeftPlus(i16),
}

/// Kinds 0 to 5. A statement without removals has an empty row of them.
#[derive(Clone, Debug, PartialEq, Eq)]
pub enum Statement {
    /// "0 skip".
    Skip,
    /// "1 NOT, a".
    Not {
        /// The removals, "left to right".
        removals: Vec<Number>,
        /// Number a.
        position: Number,
    },
    /// "2 sequence, two statements".
    Sequence(Box<Statement>, Box<Statement>),
    /// "3 if, a condition, then yes and no".
    If {
        /// What decides.
        condition: Condition,
        /// Where the condition holds.
        yes: Box<Statement>,
        /// Otherwise.
        no: Box<Statement>,
    },
    /// "4 qcase, a, then the zero and one statements".
    Qcase {
        /// The removals, "left to right".
        removals: Vec<Number>,
        /// Number a.
        position: Number,
        /// Where the qubit's bit is 0.
        zero: Box<Statement>,
        /// Where the qubit's bit is 1.
        one: Box<Statement>,
    },
    /// "5 call, procedure".
    Call {
        /// The removals, "left to right".
        removals: Vec<Number>,
        /// "a procedure byte, 1 to p".
        procedure: usize,
    },
}

/// Kinds 6 to 11.
#[derive(Clone, Debug, PartialEq, Eq)]
pub enum Condition {
    /// "6 a > b".
    Greater(Number, Number),
    /// "7 a ≥ b".
    AtLeast(Number, Number),
    /// "8 a = b".
    Equal(Number, Number),
    /// "9 and", "two conditions".
    And(Box<Condition>, Box<Condition>),
    /// "10 or, two conditions".
    Or(Box<Condition>, Box<Condition>),
    /// "11 not, one condition".
    Not(Box<Condition>),
}

/// "Then come the main statement and the bodies of procedures 1 to p".
#[derive(Clone, Debug, PartialEq, Eq)]
pub struct Program {
    /// The main statement.
    pub main: Statement,
    /// The bodies; procedure 1 stands first.
    pub bodies: Vec<Statement>,
}

impl Program {
    /// Main under number 0 and the body of procedure f under number f.
    /// A number past p, which no read table names, gives skip.
    pub(crate) fn body(&self, number: usize) -> &Statement {
        match number.checked_sub(1) {
            None => &self.main,
            Some(index) => self.bodies.get(index).unwrap_or(&Statement::Skip),
        }
    }
}

/// "Byte 0 is the edition, 1."
pub(crate) const EDITION: u8 = 1;
/// "Byte 1 is p, the number of procedures, 0 to 16."
const MOST_PROCEDURES: u8 = 16;
/// "At most 255 records".
const MOST_RECORDS: usize = 255;
/// "a tree is at most 32 records deep"; a root is 1 deep.
const DEEPEST: usize = 32;

/// "bit 0, removals".
pub(crate) const REMOVALS: u8 = 1;
/// "bit 1, number a".
const A: u8 = 2;
/// "bit 2, number b".
const B: u8 = 4;
/// "bit 3, a procedure byte".
const PROCEDURE: u8 = 8;

/// "The permitted map of each kind stands in one table of twelve entries. Bit
/// 0 is optional for kinds 1, 4 and 5; every other bit is required or
/// forbidden." An entry is the required bits and the optional ones.
pub(crate) const MAPS: [(u8, u8); 12] = [
    (0, 0),
    (A, REMOVALS),
    (0, 0),
    (0, 0),
    (A, REMOVALS),
    (PROCEDURE, REMOVALS),
    (A | B, 0),
    (A | B, 0),
    (A | B, 0),
    (0, 0),
    (0, 0),
    (0, 0),
];

/// Reads a whole table. Order: "header 1 (fewer than two bytes), 2, 3"; the
/// records; 8.
///
/// # Errors
/// The refusals 1 to 8.
pub fn read_table(table: &[u8]) -> Result<Program, u32> {
    let [edition, procedures, rest @ ..] = table else {
        return Err(refusal::STOPS_TOO_SOON);
    };
    if *edition != EDITION {
        return Err(refusal::EDITION);
    }
    if *procedures > MOST_PROCEDURES {
        return Err(refusal::PROCEDURES);
    }
    let mut reader = Reader {
        rest,
        procedures: *procedures,
        records: 0,
    };
    let main = reader.statement(1)?;
    let mut bodies = Vec::new();
    for _ in 0..*procedures {
        bodies.push(reader.statement(1)?);
    }
    if !reader.rest.is_empty() {
        return Err(refusal::BYTES_LEFT);
    }
    Ok(Program { main, bodies })
}

/// What a reader has before it and what it has counted.
struct Reader<'a> {
    rest: &'a [u8],
    procedures: u8,
    records: usize,
}

impl Reader<'_> {
    /// The next byte, or "1 the table stops too soon".
    fn byte(&mut self) -> Result<u8, u32> {
        let (&byte, rest) = self.rest.split_first().ok_or(refusal::STOPS_TOO_SOON)?;
        self.rest = rest;
        Ok(byte)
    }

    /// "each record 1 for map and kind, 4, 7, 5". Gives the map and the kind,
    /// which is one of `kinds`. Condition records count as records too.
    fn head(&mut self, depth: usize, kinds: std::ops::RangeInclusive<u8>) -> Result<(u8, u8), u32> {
        let map = self.byte()?;
        let kind = self.byte()?;
        if !kinds.contains(&kind) {
            return Err(refusal::KIND);
        }
        if depth > DEEPEST || self.records == MOST_RECORDS {
            return Err(refusal::DEPTH_OR_RECORDS);
        }
        self.records += 1;
        let (required, optional) = MAPS[usize::from(kind)];
        if map & required != required || map & !(required | optional) != 0 {
            return Err(refusal::MAP);
        }
        Ok((map, kind))
    }

    /// A record of kind 0 to 5, its fields and then its children: "a record's
    /// children follow it, first child first".
    fn statement(&mut self, depth: usize) -> Result<Statement, u32> {
        let (map, kind) = self.head(depth, 0..=5)?;
        match kind {
            0 => Ok(Statement::Skip),
            1 => Ok(Statement::Not {
                removals: self.removals(map)?,
                position: self.number()?,
            }),
            2 => Ok(Statement::Sequence(self.child(depth)?, self.child(depth)?)),
            3 => Ok(Statement::If {
                condition: self.condition(depth + 1)?,
                yes: self.child(depth)?,
                no: self.child(depth)?,
            }),
            4 => Ok(Statement::Qcase {
                removals: self.removals(map)?,
                position: self.number()?,
                zero: self.child(depth)?,
                one: self.child(depth)?,
            }),
            5 => Ok(Statement::Call {
                removals: self.removals(map)?,
                procedure: self.procedure()?,
            }),
            _ => Err(refusal::KIND),
        }
    }

    /// A statement one record deeper.
    fn child(&mut self, depth: usize) -> Result<Box<Statement>, u32> {
        self.statement(depth + 1).map(Box::new)
    }

    /// A record of kind 6 to 11, its fields and then its children.
    fn condition(&mut self, depth: usize) -> Result<Condition, u32> {
        let (_, kind) = self.head(depth, 6..=11)?;
        match kind {
            6 => Ok(Condition::Greater(self.number()?, self.number()?)),
            7 => Ok(Condition::AtLeast(self.number()?, self.number()?)),
            8 => Ok(Condition::Equal(self.number()?, self.number()?)),
            9 => Ok(Condition::And(self.part(depth)?, self.part(depth)?)),
            10 => Ok(Condition::Or(self.part(depth)?, self.part(depth)?)),
            11 => Ok(Condition::Not(self.part(depth)?)),
            _ => Err(refusal::KIND),
        }
    }

    /// A condition one record deeper.
    fn part(&mut self, depth: usize) -> Result<Box<Condition>, u32> {
        self.condition(depth + 1).map(Box::new)
    }

    /// "bit 0, removals: a count byte 1 to 8, then that many numbers".
    fn removals(&mut self, map: u8) -> Result<Vec<Number>, u32> {
        let mut removals = Vec::new();
        if map & REMOVALS == 0 {
            return Ok(removals);
        }
        let count = self.byte()?;
        if !(1..=8).contains(&count) {
            return Err(refusal::FIELD);
        }
        for _ in 0..count {
            removals.push(self.number()?);
        }
        Ok(removals)
    }

    /// A base byte and a constant, each "tested as it comes". Document 02, S-2:
    /// "Base 2 no longer gives 6, under edition 1 too."
    fn number(&mut self) -> Result<Number, u32> {
        let with_base = match self.byte()? {
            0 => Number::Constant,
            1 => Number::SizePlus,
            2 => Number::LeftPlus,
            _ => return Err(refusal::FIELD),
        };
        let constant = i16::from_le_bytes([self.byte()?, self.byte()?]);
        Ok(with_base(constant))
    }

    /// "bit 3, a procedure byte, 1 to p".
    fn procedure(&mut self) -> Result<usize, u32> {
        let procedure = self.byte()?;
        if procedure == 0 || procedure > self.procedures {
            return Err(refusal::FIELD);
        }
        Ok(usize::from(procedure))
    }
}
