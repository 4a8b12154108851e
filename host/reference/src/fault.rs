//! Document 01, "Meaning": access faults, looked for in two ways.
//!
//! The plain way follows the words: it walks every call from main with its
//! list and the closed qubits. The quick way asks once for each procedure and
//! list length which positions are touched. Both are for programs without
//! refusal 10, whose calls come to an end.

use crate::meaning::{holds, main_list, remaining, touched};
use crate::table::{Number, Program, Statement};
use std::collections::{HashMap, HashSet};

/// Whether calls from main lead to an access fault, looked for plainly.
pub(crate) fn plain_fault(program: &Program, n: u8) -> bool {
    let mut check = Plain {
        program,
        clean: HashSet::new(),
    };
    check.faults(&program.main, &main_list(n), &[])
}

/// The plain check. A body found clean is not walked again with the very same
/// list and closed qubits.
struct Plain<'p> {
    program: &'p Program,
    clean: HashSet<(usize, Vec<u8>, Vec<u8>)>,
}

impl Plain<'_> {
    /// "A fault counts in either branch of a qcase, taken or not, but only in
    /// the chosen branch of an if, and only where calls from main lead."
    fn faults(&mut self, statement: &Statement, list: &[u8], closed: &[u8]) -> bool {
        match statement {
            Statement::Skip => false,
            Statement::Not { removals, position } => {
                open_qubit(list, removals, *position, closed).is_none()
            }
            Statement::Sequence(first, second) => {
                self.faults(first, list, closed) || self.faults(second, list, closed)
            }
            Statement::If { condition, yes, no } => {
                let chosen = if holds(condition, list.len()) {
                    yes
                } else {
                    no
                };
                self.faults(chosen, list, closed)
            }
            Statement::Qcase {
                removals,
                position,
                zero,
                one,
            } => match open_qubit(list, removals, *position, closed) {
                Some(qubit) => {
                    let closed = with(closed, qubit);
                    self.faults(zero, list, &closed) || self.faults(one, list, &closed)
                }
                None => true,
            },
            Statement::Call {
                removals,
                procedure,
            } => self.call_faults(*procedure, remaining(list, removals), closed),
        }
    }

    /// "Inside its two branches a qcase closes its qubit, through calls too".
    /// "A call with an empty list does nothing."
    fn call_faults(&mut self, procedure: usize, list: Vec<u8>, closed: &[u8]) -> bool {
        if list.is_empty() {
            return false;
        }
        let place = (procedure, list, closed.to_vec());
        if self.clean.contains(&place) {
            return false;
        }
        let faults = self.faults(self.program.body(procedure), &place.1, closed);
        if !faults {
            self.clean.insert(place);
        }
        faults
    }
}

/// The qubit touched, or none for a fault: "A position at or below zero, or
/// past the end, touches nothing and is an access fault"; "touching a closed
/// qubit is a fault".
fn open_qubit(list: &[u8], removals: &[Number], position: Number, closed: &[u8]) -> Option<u8> {
    touched(list, removals, position).filter(|qubit| !closed.contains(qubit))
}

/// The closed qubits and one more, in ascending order.
fn with(closed: &[u8], qubit: u8) -> Vec<u8> {
    let mut closed = closed.to_vec();
    closed.push(qubit);
    closed.sort_unstable();
    closed
}

/// Whether calls from main lead to an access fault, looked for quickly.
pub(crate) fn quick_fault(program: &Program, n: u8) -> bool {
    let mut check = Quick {
        program,
        known: HashMap::new(),
    };
    check.touches(&program.main, usize::from(n)).is_none()
}

/// A set of positions of a list, position i under bit i − 1.
type Positions = u32;

/// The quick check. Which branch of an if is chosen, and which positions are
/// removed and touched, follows from the list's length alone, and no list
/// names a qubit twice. So one answer serves every list of a length.
struct Quick<'p> {
    program: &'p Program,
    known: HashMap<(usize, usize), Option<Positions>>,
}

impl Quick<'_> {
    /// The positions that a statement touches, itself or through calls, from a
    /// list of this length with nothing closed; none where it faults.
    fn touches(&mut self, statement: &Statement, length: usize) -> Option<Positions> {
        let list = main_list(length as u8);
        match statement {
            Statement::Skip => Some(0),
            Statement::Not { removals, position } => {
                touched(&list, removals, *position).map(position_bit)
            }
            Statement::Sequence(first, second) => {
                Some(self.touches(first, length)? | self.touches(second, length)?)
            }
            Statement::If { condition, yes, no } => {
                let chosen = if holds(condition, length) { yes } else { no };
                self.touches(chosen, length)
            }
            Statement::Qcase {
                removals,
                position,
                zero,
                one,
            } => {
                let own = position_bit(touched(&list, removals, *position)?);
                let inner = self.touches(zero, length)? | self.touches(one, length)?;
                (own & inner == 0).then_some(own | inner)
            }
            Statement::Call {
                removals,
                procedure,
            } => self.call_touches(*procedure, &remaining(&list, removals)),
        }
    }

    /// The caller's positions that a call touches. `left` names, in order, the
    /// caller's positions that the removals left.
    fn call_touches(&mut self, procedure: usize, left: &[u8]) -> Option<Positions> {
        if left.is_empty() {
            return Some(0);
        }
        let place = (procedure, left.len());
        let inner = match self.known.get(&place) {
            Some(&known) => known,
            None => {
                let found = self.touches(self.program.body(procedure), left.len());
                self.known.insert(place, found);
                found
            }
        }?;
        let named = (1u8..).zip(left);
        Some(
            named
                .filter(|(position, _)| inner & position_bit(*position) != 0)
                .fold(0, |set, (_, outer)| set | position_bit(*outer)),
        )
    }
}

/// The set of one position.
fn position_bit(position: u8) -> Positions {
    1 << (position - 1)
}
