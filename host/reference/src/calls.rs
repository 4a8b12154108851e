//! Document 01, end of "Meaning": reaching, recursive calls and width; and the
//! "Bound on gates" of "The circuit", which counts classes of calls.
//!
//! Main is number 0 among the procedures here. No call leads to it, so its
//! calls are never recursive and its width is 0.

use crate::table::{Number, Program, Statement};

/// Which procedure reaches which.
pub(crate) struct Calls {
    reaches: Vec<Vec<bool>>,
}

impl Calls {
    /// "Procedure f reaches g by one or more calls." Every call record of a
    /// body counts, whether or not a run comes to it.
    pub(crate) fn of(program: &Program) -> Calls {
        let count = program.bodies.len() + 1;
        let mut reaches = vec![vec![false; count]; count];
        for (from, row) in reaches.iter_mut().enumerate() {
            for (_, to) in call_records(program.body(from)) {
                row[to] = true;
            }
        }
        for middle in 0..count {
            let onward = reaches[middle].clone();
            for row in &mut reaches {
                if row[middle] {
                    row.iter_mut().zip(&onward).for_each(|(to, via)| *to |= via);
                }
            }
        }
        Calls { reaches }
    }

    /// "A call from f to g is recursive if g also reaches f".
    pub(crate) fn recursive(&self, from: usize, to: usize) -> bool {
        self.reaches[to][from]
    }

    /// "Width: skip and NOT 0, sequence the sum, if and qcase the larger,
    /// recursive call 1, other call 0." Both branches of an if count.
    pub(crate) fn width(&self, from: usize, statement: &Statement) -> usize {
        match statement {
            Statement::Skip | Statement::Not { .. } => 0,
            Statement::Sequence(first, second) => {
                self.width(from, first) + self.width(from, second)
            }
            Statement::If { yes, no, .. } => self.width(from, yes).max(self.width(from, no)),
            Statement::Qcase { zero, one, .. } => self.width(from, zero).max(self.width(from, one)),
            Statement::Call { procedure, .. } => usize::from(self.recursive(from, *procedure)),
        }
    }

    /// "A call from f to g is recursive [...], and it must carry a removal":
    /// whether some body of the whole table breaks this.
    pub(crate) fn lack_a_removal(&self, program: &Program) -> bool {
        (0..=program.bodies.len()).any(|from| {
            call_records(program.body(from))
                .any(|(removals, to)| removals.is_empty() && self.recursive(from, to))
        })
    }

    /// "11 width over 1": whether some body of the whole table is too wide.
    pub(crate) fn too_wide(&self, program: &Program) -> bool {
        (0..=program.bodies.len()).any(|from| self.width(from, program.body(from)) > 1)
    }
}

/// The records of a statement in preorder.
fn records(statement: &Statement) -> Vec<&Statement> {
    let mut all = vec![statement];
    match statement {
        Statement::Skip | Statement::Not { .. } | Statement::Call { .. } => {}
        Statement::Sequence(first, second)
        | Statement::If {
            yes: first,
            no: second,
            ..
        }
        | Statement::Qcase {
            zero: first,
            one: second,
            ..
        } => {
            all.extend(records(first));
            all.extend(records(second));
        }
    }
    all
}

/// The call records of a statement in preorder: their removals and procedures.
fn call_records(statement: &Statement) -> impl Iterator<Item = (&[Number], usize)> {
    records(statement)
        .into_iter()
        .filter_map(|record| match record {
            Statement::Call {
                removals,
                procedure,
            } => Some((removals.as_slice(), *procedure)),
            _ => None,
        })
}

/// The number of NOT records of a statement.
fn not_records(statement: &Statement) -> usize {
    let is_not = |record: &&&Statement| matches!(record, Statement::Not { .. });
    records(statement).iter().filter(is_not).count()
}

/// "r is the most classes of mutually reaching procedures on one line of
/// falling calls from main (a procedure that no cycle holds is a class by
/// itself)". A call inside a class stays on its class; any other call falls
/// by one class. The levels rise until no call raises one.
fn most_classes_on_a_line(program: &Program) -> u32 {
    let calls = Calls::of(program);
    let mut levels: Vec<Option<u32>> = vec![None; program.bodies.len() + 1];
    levels[0] = Some(0);
    let mut rising = true;
    while rising {
        rising = false;
        for from in 0..levels.len() {
            let Some(level) = levels[from] else { continue };
            for (_, to) in call_records(program.body(from)) {
                let next = level + u32::from(!calls.recursive(from, to));
                if levels[to].is_none_or(|known| known < next) {
                    levels[to] = Some(next);
                    rising = true;
                }
            }
        }
    }
    levels.into_iter().flatten().max().unwrap_or(0)
}

/// "Bound on gates: s × (4 + 2n) × (1 + p × r × (c × n)^r). Here s counts NOT
/// and call records, c call records". A value past the largest u128 gives the
/// largest u128.
#[must_use]
pub fn gate_bound(program: &Program, n: u32) -> u128 {
    let n = u128::from(n);
    let bodies = || std::iter::once(&program.main).chain(&program.bodies);
    let nots: usize = bodies().map(not_records).sum();
    let calls: usize = bodies().map(|body| call_records(body).count()).sum();
    let s = (nots + calls) as u128;
    let c = calls as u128;
    let p = program.bodies.len() as u128;
    let r = most_classes_on_a_line(program);
    let lines = (c * n).saturating_pow(r);
    let chains = (p * u128::from(r)).saturating_mul(lines).saturating_add(1);
    (s * (4 + 2 * n)).saturating_mul(chains)
}
