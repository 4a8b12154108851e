//! Document 01, "Meaning": numbers, lists, conditions and the end word; and
//! document 02, S-2, the size of what is left.

use crate::table::{Condition, Number, Program, Statement};

/// "Main's list is qubits 1 to n."
pub(crate) fn main_list(n: u8) -> Vec<u8> {
    (1..=n).collect()
}

/// What a number may add to its constant, as it stands where the number is.
#[derive(Clone, Copy)]
struct Addends {
    /// "the size of the procedure's whole list".
    whole: usize,
    /// "the size of the list left by the removals already done in that record";
    /// 0 once it is empty.
    left: usize,
}

impl Addends {
    /// For a removal or a position a, where the removals already done in its
    /// record left this of the procedure's whole list. Before removal j these
    /// are the j − 1 before it, before position a all of them.
    fn of(list: &[u8], left: &[u8]) -> Addends {
        Addends {
            whole: list.len(),
            left: left.len(),
        }
    }

    /// For a comparison with a whole list of this size: base 2, "in a
    /// comparison it equals base 1".
    fn in_comparison(size: usize) -> Addends {
        Addends {
            whole: size,
            left: size,
        }
    }

    /// The value of a number.
    fn value(self, number: Number) -> i64 {
        match number {
            Number::Constant(constant) => i64::from(constant),
            Number::SizePlus(constant) => self.whole as i64 + i64::from(constant),
            Number::LeftPlus(constant) => self.left as i64 + i64::from(constant),
        }
    }

    /// The index of a position of the list left, or none where it is "at or
    /// below zero, or past the end".
    fn index(self, position: Number) -> Option<usize> {
        let index = usize::try_from(self.value(position)).ok()?.checked_sub(1)?;
        (index < self.left).then_some(index)
    }
}

/// "Removals go left to right, each from what the last one left. A position
/// outside 1 to the length empties the list". `list` is the whole list; base 1
/// keeps to its size throughout, base 2 goes by the size left before each.
#[must_use]
pub fn remaining(list: &[u8], removals: &[Number]) -> Vec<u8> {
    let mut left = list.to_vec();
    for &removal in removals {
        match Addends::of(list, &left).index(removal) {
            Some(index) => {
                left.remove(index);
            }
            None => left.clear(),
        }
    }
    left
}

/// "NOT and qcase touch the entry at position a of the remaining list. A
/// position at or below zero, or past the end, touches nothing".
pub(crate) fn touched(list: &[u8], removals: &[Number], position: Number) -> Option<u8> {
    let left = remaining(list, removals);
    let index = Addends::of(list, &left).index(position)?;
    Some(left[index])
}

/// Whether a condition "holds for its numbers" with a whole list of this size.
#[must_use]
pub fn holds(condition: &Condition, size: usize) -> bool {
    let value = |number: &Number| Addends::in_comparison(size).value(*number);
    match condition {
        Condition::Greater(a, b) => value(a) > value(b),
        Condition::AtLeast(a, b) => value(a) >= value(b),
        Condition::Equal(a, b) => value(a) == value(b),
        Condition::And(first, second) => holds(first, size) && holds(second, size),
        Condition::Or(first, second) => holds(first, size) || holds(second, size),
        Condition::Not(inner) => !holds(inner, size),
    }
}

/// "In a word, qubit i is bit i − 1, lowest bit 0."
pub(crate) fn bit(qubit: u8) -> u64 {
    1 << (qubit - 1)
}

/// "A run's end word is what main gives from its list and the start word."
/// For an accepted program; its calls come to an end.
pub(crate) fn end_word(program: &Program, n: u8, word: u64) -> u64 {
    given(program, &program.main, &main_list(n), word)
}

/// "Each statement takes the whole list of its procedure (or of main) and a
/// word, and gives a word."
fn given(program: &Program, statement: &Statement, list: &[u8], word: u64) -> u64 {
    match statement {
        Statement::Skip => word,
        Statement::Not { removals, position } => match touched(list, removals, *position) {
            Some(qubit) => word ^ bit(qubit),
            None => word,
        },
        Statement::Sequence(first, second) => {
            let between = given(program, first, list, word);
            given(program, second, list, between)
        }
        Statement::If { condition, yes, no } => {
            let chosen = if holds(condition, list.len()) {
                yes
            } else {
                no
            };
            given(program, chosen, list, word)
        }
        Statement::Qcase {
            removals,
            position,
            zero,
            one,
        } => match touched(list, removals, *position) {
            Some(qubit) if word & bit(qubit) == 0 => given(program, zero, list, word),
            Some(_) => given(program, one, list, word),
            None => word,
        },
        Statement::Call {
            removals,
            procedure,
        } => match remaining(list, removals) {
            left if left.is_empty() => word,
            left => given(program, program.body(*procedure), &left, word),
        },
    }
}

#[cfg(test)]
mod tests {
    use super::Addends;
    use crate::table::Number::{Constant, LeftPlus, SizePlus};

    #[test]
    fn each_base_adds_its_own_size() {
        let addends = Addends { whole: 5, left: 3 };
        assert_eq!(addends.value(Constant(-1)), -1);
        assert_eq!(addends.value(SizePlus(-1)), 4);
        assert_eq!(addends.value(LeftPlus(-1)), 2);
        let long = Addends {
            whole: 32,
            left: 31,
        };
        assert_eq!(long.value(LeftPlus(i16::MAX)), 32_798);
        assert_eq!(long.value(LeftPlus(i16::MIN)), -32_737);
    }

    /// No position of an empty list is anything, so no answer shows this.
    #[test]
    fn base_2_is_the_constant_once_the_list_is_empty() {
        let emptied = Addends::of(&[1, 2, 3], &[]);
        for constant in [i16::MIN, -1, 0, 1, 3, i16::MAX] {
            assert_eq!(emptied.value(LeftPlus(constant)), i64::from(constant));
            assert_eq!(emptied.index(LeftPlus(constant)), None);
        }
    }

    #[test]
    fn in_a_comparison_the_whole_list_is_left() {
        for size in 0..=32 {
            let addends = Addends::in_comparison(size);
            assert_eq!(addends.value(LeftPlus(-7)), addends.value(SizePlus(-7)));
        }
    }
}
