//! Programs with base 2, the size of the list left by the removals already done
//! in a record. They are made from other programs by changing their numbers.

use crate::numbers::{each_number, each_statement, MOST_REMOVALS};
use crate::programs::{program, program_from_the_end, wild_program, Shape, LARGE, MERGING, SMALL};
use crate::tree::{
    case, choose, in_order, not, procedure, qcase, Condition, Number, Program, Statement,
};
use crate::Random;
use Number::{Constant, LeftPlus, SizePlus};

/// The program with base 2 in the place of base 1, in so many of a hundred
/// numbers. Each finds what it found before, wherever all removals before it in
/// its record find an entry: each of them has made the list one shorter.
#[must_use]
pub fn by_size_left(random: &mut Random, mut program: Program, percent: usize) -> Program {
    each_number(&mut program, &mut |spot| {
        let SizePlus(constant) = *spot.number else {
            return;
        };
        if random.chance(percent) {
            let removed = spot.removals_before as i16;
            *spot.number = LeftPlus(constant.saturating_add(removed));
        }
    });
    program
}

/// The program with blind numbers of base 2, in so many of a hundred places.
#[must_use]
pub fn by_blind_sizes(random: &mut Random, mut program: Program, percent: usize) -> Program {
    each_number(&mut program, &mut |spot| {
        if random.chance(percent) {
            *spot.number = blind(random);
        }
    });
    program
}

/// A number of base 2 that nobody vouches for.
fn blind(random: &mut Random) -> Number {
    LeftPlus(match random.below(20) {
        0 => i16::MIN,
        1 => i16::MAX,
        _ => random.between(-4, 1),
    })
}

/// The program with more removals of base 2, up to eight in all, behind those
/// of some calls. They take the last entries or, in a list that is too short,
/// all of them.
#[must_use]
pub fn with_longer_calls(random: &mut Random, mut program: Program, percent: usize) -> Program {
    each_statement(&mut program, &mut |statement| {
        let Statement::Call(removals, _) = statement else {
            return;
        };
        if random.chance(percent) {
            let most = MOST_REMOVALS.saturating_sub(removals.len());
            let more = random.below(most + 1);
            removals.extend((0..more).map(|_| LeftPlus(random.between(-2, 0))));
        }
    });
    program
}

/// Whether base 2 stands in the program.
#[must_use]
pub fn has_base_2(program: &Program) -> bool {
    let mut found = false;
    each_number(&mut program.clone(), &mut |spot| {
        found |= matches!(spot.number, LeftPlus(_));
    });
    found
}

/// A random program with base 2 that is mostly accepted on n qubits.
pub fn program_by_size_left(random: &mut Random, n: u32) -> Program {
    loop {
        let shape = random.pick(&[SMALL, SMALL, MERGING, MERGING, LARGE]);
        let made = made_by_size_left(random, &shape.unwrap_or(SMALL), n);
        if has_base_2(&made) {
            return made;
        }
    }
}

/// A random program of a shape, mostly with base 2: in some of its numbers or
/// in all that had base 1, in further removals of its calls and, now and then,
/// in numbers that nobody vouches for.
fn made_by_size_left(random: &mut Random, shape: &Shape, n: u32) -> Program {
    let mut made = if random.chance(40) {
        program(random, shape)
    } else {
        program_from_the_end(random, shape, n)
    };
    let percent = random.pick(&[30, 60, 100, 100]).unwrap_or(100);
    made = by_size_left(random, made, percent);
    if random.chance(25) {
        made = with_longer_calls(random, made, 40);
    }
    if random.chance(20) {
        made = by_blind_sizes(random, made, 4);
    }
    made
}

/// A random program with base 2 that keeps the form of a table and nothing
/// else.
pub fn wild_program_by_size_left(random: &mut Random) -> Program {
    loop {
        let wild = wild_program(random, &SMALL);
        let made = by_blind_sizes(random, wild, 40);
        if has_base_2(&made) {
            return made;
        }
    }
}

/// A procedure that exchanges its first and its last qubit and calls itself
/// without both, the last one by the size of what is left without the first:
/// the qubits end in reverse order.
#[must_use]
pub fn reversal() -> Vec<u8> {
    reversing(LeftPlus(0), LeftPlus(0))
}

/// The same with base 1: that size is worked out by hand.
#[must_use]
pub fn reversal_by_hand() -> Vec<u8> {
    reversing(SizePlus(0), SizePlus(-1))
}

/// A table that reverses, with the last position of the whole list, which is
/// its size too, and of the list without its first entry.
fn reversing(last: Number, last_without_first: Number) -> Vec<u8> {
    let last_by_first = case(1, Statement::Skip, Statement::Not(vec![], last));
    let first_by_last = qcase(vec![], last, Statement::Skip, not(1));
    let inner = Statement::Call(vec![Constant(1), last_without_first], 1);
    let steps = vec![last_by_first.clone(), first_by_last, last_by_first, inner];
    let several = Condition::Greater(last, Constant(1));
    procedure(choose(several, in_order(steps), Statement::Skip))
}
