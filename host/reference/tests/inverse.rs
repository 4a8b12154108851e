//! Document 02, S-5, "The inverse program, written as a table": "Write, from an
//! accepted table, the table whose run undoes it: sequences turned round,
//! everything else kept." Small tables, their inverses and their end words are
//! written by hand; those of random tables are turned a second time here, by
//! their bytes alone. Programs written as tables are read again.

#[path = "../../foq/tests/calls/mod.rs"]
mod calls;
mod judged;
mod met;
#[path = "../../foq/tests/sequences/mod.rs"]
mod sequences;

use foq_generator::damage::{damaged, single_changes, truncations};
use foq_generator::programs::{program, wild_program, Shape, LARGE, MERGING, SMALL};
use foq_generator::published::{chained_substring, full_adder, palindromes};
use foq_generator::size_left::{program_by_size_left, reversal, wild_program_by_size_left};
use foq_generator::tables::{
    closed_through_a_call, deepest, every_kind, full, leaning_left, leaning_right, nested_classes,
    one_in_each_branch, sixteen_in_turn, two_in_sequence, two_in_turn, without_removal,
};
use foq_generator::tree::{self, encode, in_order, not, procedure, sequence, table};
use foq_generator::{Random, PAIRS};
use foq_reference::{
    compile, inverse, inverse_program, read_table, refusal, run, table_bytes, verdict, Condition,
    Number, Program, Statement, LONGEST_CIRCUIT,
};
use judged::{bytes, judged, WORKSPACE};
use met::{add, assert_met, Counts};
use sequences::classes;
use std::collections::BTreeSet;
use std::ops::RangeInclusive;
use Number::{Constant, LeftPlus, SizePlus};

/// "0 skip".
const SKIP: &str = "00 00";
/// "1 NOT, a", of the qubits 1 to 4.
const NOT_1: &str = "02 01 00 01 00";
const NOT_2: &str = "02 01 00 02 00";
const NOT_3: &str = "02 01 00 03 00";
const NOT_4: &str = "02 01 00 04 00";
/// Qcases with a skip and a NOT: the second qubit is flipped where the first
/// one holds 1.
const BY_1_NOT_2: &str = "02 04 00 01 00  00 00  02 01 00 02 00";
const BY_2_NOT_1: &str = "02 04 00 02 00  00 00  02 01 00 01 00";
const BY_2_NOT_3: &str = "02 04 00 02 00  00 00  02 01 00 03 00";
const BY_3_NOT_1: &str = "02 04 00 03 00  00 00  02 01 00 01 00";
const BY_3_NOT_2: &str = "02 04 00 03 00  00 00  02 01 00 02 00";

/// The end words of all start words, in order.
fn ends(table: &[u8], n: u32) -> Vec<u64> {
    let end = |word| run(table, n, word, WORKSPACE).unwrap();
    (0..1 << n).map(end).collect()
}

/// Checks that a row of end words, after another row, gives each start word.
fn check_undone(first: &[u64], second: &[u64]) {
    let undone: Vec<u64> = first.iter().map(|&end| second[end as usize]).collect();
    let words: Vec<u64> = (0..first.len() as u64).collect();
    assert_eq!(undone, words);
}

/// Checks what the request says of an accepted table and its inverse: "It is
/// accepted at the same n, and running one after the other gives the start
/// word, whichever comes first. Inverting again gives a table with the first
/// one's bytes." Gives the end words of both.
fn check_pair(source: &[u8], written: &[u8], n: u32) -> [Vec<u64>; 2] {
    for (one, other) in [(source, written), (written, source)] {
        assert_eq!(verdict(one, n, WORKSPACE), 0);
        assert_eq!(inverse(one, n, one.len()).as_deref(), Ok(other));
    }
    let (there, back) = (ends(source, n), ends(written, n));
    check_undone(&there, &back);
    check_undone(&back, &there);
    [there, back]
}

/// Checks that two tables are each other's inverses on so many qubits.
fn check(source: &str, written: &str, qubits: RangeInclusive<u32>) {
    for n in qubits {
        check_pair(&bytes(source), &bytes(written), n);
    }
}

/// Checks two tables that are each other's inverses, and their end words.
fn check_ends(source: &str, written: &str, n: u32, there: &[u64], back: &[u64]) {
    let ends = check_pair(&bytes(source), &bytes(written), n);
    assert_eq!(ends, [there, back]);
}

#[test]
fn two_nots_are_turned_round() {
    check(
        "01 00  00 02  02 01 00 01 00  02 01 00 02 00",
        "01 00  00 02  02 01 00 02 00  02 01 00 01 00",
        2..=6,
    );
    // NOTs do not mind; a NOT and a qcase on its qubit do. This table counts
    // down, its inverse up.
    check_ends(
        "01 00  00 02  02 01 00 01 00  02 04 00 01 00  00 00  02 01 00 02 00",
        "01 00  00 02  02 04 00 01 00  00 00  02 01 00 02 00  02 01 00 01 00",
        2,
        &[3, 0, 1, 2],
        &[1, 2, 3, 0],
    );
}

#[test]
fn a_table_without_a_sequence_is_its_own_inverse() {
    check("01 00 00 00", "01 00 00 00", 1..=6);
    let one = format!("01 00 {NOT_1}");
    check(&one, &one, 1..=6);
    for n in 1..=8 {
        check_pair(PAIRS, PAIRS, n);
        let branches = one_in_each_branch();
        check_pair(&branches, &branches, n);
        let substring = chained_substring();
        check_pair(&substring, &substring, n);
    }
    for n in [3, 5, 7] {
        check_pair(&palindromes(), &palindromes(), n);
    }
}

#[test]
fn a_body_that_counts_down_counts_up_when_turned() {
    // A NOT of 1, then, where 1 holds 1, the same on the others.
    let down =
        bytes("01 01 08 05 01 00 02 02 01 00 01 00 02 04 00 01 00 00 00 09 05 01 00 01 00 01");
    let up = bytes("01 01 08 05 01 00 02 02 04 00 01 00 00 00 09 05 01 00 01 00 01 02 01 00 01 00");
    for n in 1..=8 {
        let [there, back] = check_pair(&down, &up, n);
        let last = (1 << n) - 1;
        for word in 0..=last {
            let index = word as usize;
            assert_eq!(there[index], if word == 0 { last } else { word - 1 });
            assert_eq!(back[index], if word == last { 0 } else { word + 1 });
        }
    }
}

#[test]
fn sequences_in_sequences_are_turned_too() {
    // (1; 2); (3; 4) becomes (4; 3); (2; 1).
    check(
        &format!("01 00  00 02  00 02 {NOT_1} {NOT_2}  00 02 {NOT_3} {NOT_4}"),
        &format!("01 00  00 02  00 02 {NOT_4} {NOT_3}  00 02 {NOT_2} {NOT_1}"),
        4..=6,
    );
    // 1; (2; (3; 4)) becomes ((4; 3); 2); 1.
    check(
        &format!("01 00  00 02 {NOT_1}  00 02 {NOT_2}  00 02 {NOT_3} {NOT_4}"),
        &format!("01 00  00 02  00 02  00 02 {NOT_4} {NOT_3}  {NOT_2}  {NOT_1}"),
        4..=6,
    );
    // (1; (2; 3)); 4 becomes 4; ((3; 2); 1).
    check(
        &format!("01 00  00 02  00 02 {NOT_1}  00 02 {NOT_2} {NOT_3}  {NOT_4}"),
        &format!("01 00  00 02 {NOT_4}  00 02  00 02 {NOT_3} {NOT_2}  {NOT_1}"),
        4..=6,
    );
}

#[test]
fn turning_the_outermost_sequence_alone_does_not_undo() {
    // From 001 the source goes to 011, 111 and 110.
    let source = format!("01 00  00 02 {BY_1_NOT_2}  00 02 {BY_2_NOT_3} {BY_3_NOT_1}");
    let written = format!("01 00  00 02  00 02 {BY_3_NOT_1} {BY_2_NOT_3}  {BY_1_NOT_2}");
    let there = [0, 0b110, 0b111, 0b001, 0b101, 0b011, 0b010, 0b100];
    let back = [0, 0b011, 0b110, 0b101, 0b111, 0b100, 0b001, 0b010];
    check_ends(&source, &written, 3, &there, &back);
    // From 110 this one goes to 010 and stays there.
    let outermost = format!("01 00  00 02  00 02 {BY_2_NOT_3} {BY_3_NOT_1}  {BY_1_NOT_2}");
    assert_eq!(run(&bytes(&outermost), 3, 0b110, WORKSPACE), Ok(0b010));
}

#[test]
fn sequences_in_the_branches_of_a_qcase_are_turned_in_their_branches() {
    let case = "02 04 00 01 00";
    check_ends(
        &format!("01 00  {case}  00 02 {NOT_2} {BY_2_NOT_3}  00 02 {BY_3_NOT_2} {NOT_3}"),
        &format!("01 00  {case}  00 02 {BY_2_NOT_3} {NOT_2}  00 02 {NOT_3} {BY_3_NOT_2}"),
        3,
        &[6, 5, 0, 7, 2, 3, 4, 1],
        &[2, 7, 4, 5, 6, 1, 0, 3],
    );
    // In one branch alone.
    check(
        &format!("01 00  {case}  00 02 {NOT_2} {BY_2_NOT_3}  {SKIP}"),
        &format!("01 00  {case}  00 02 {BY_2_NOT_3} {NOT_2}  {SKIP}"),
        3..=6,
    );
    check(
        &format!("01 00  {case}  {SKIP}  00 02 {BY_3_NOT_2} {NOT_3}"),
        &format!("01 00  {case}  {SKIP}  00 02 {NOT_3} {BY_3_NOT_2}"),
        3..=6,
    );
}

#[test]
fn sequences_in_the_branches_of_an_if_are_turned_in_their_branches() {
    // Whether the size is over 2.
    let by = "00 03  06 06 01 00 00 00 02 00";
    let source = format!("01 00  {by}  00 02 {NOT_1} {BY_1_NOT_2}  00 02 {BY_2_NOT_1} {NOT_2}");
    let written = format!("01 00  {by}  00 02 {BY_1_NOT_2} {NOT_1}  00 02 {NOT_2} {BY_2_NOT_1}");
    check_ends(&source, &written, 2, &[2, 3, 1, 0], &[3, 2, 0, 1]);
    let (there, back) = ([3, 0, 1, 2, 7, 4, 5, 6], [1, 2, 3, 0, 5, 6, 7, 4]);
    check_ends(&source, &written, 3, &there, &back);
    assert_eq!(inverse(&bytes(&source), 1, usize::MAX), Err(12));
    // In one branch alone.
    check(
        &format!("01 00  {by}  00 02 {NOT_1} {BY_1_NOT_2}  {SKIP}"),
        &format!("01 00  {by}  00 02 {BY_1_NOT_2} {NOT_1}  {SKIP}"),
        1..=4,
    );
    check(
        &format!("01 00  {by}  {SKIP}  00 02 {BY_2_NOT_1} {NOT_2}"),
        &format!("01 00  {by}  {SKIP}  00 02 {NOT_2} {BY_2_NOT_1}"),
        2..=4,
    );
}

#[test]
fn conditions_are_kept_as_they_are() {
    // The size is at least 2, and it is not that the size less 4 is 0 or the
    // constant 3 is over the size: 3 or 5 and more.
    let first = "06 07 01 00 00 00 02 00";
    let second = "00 0B  00 0A  06 08 01 FC FF 00 00 00  06 06 00 03 00 02 00 00";
    let by = format!("00 03  00 09 {first} {second}");
    check(
        &format!("01 00  {by}  00 02 {NOT_1} {BY_1_NOT_2}  00 02 {NOT_1} {SKIP}"),
        &format!("01 00  {by}  00 02 {BY_1_NOT_2} {NOT_1}  00 02 {SKIP} {NOT_1}"),
        1..=6,
    );
    // Under a sequence and over one.
    check(
        &format!("01 00  00 02 {NOT_1}  {by}  00 02 {NOT_2} {BY_2_NOT_1}  {SKIP}"),
        &format!("01 00  00 02  {by}  00 02 {BY_2_NOT_1} {NOT_2}  {SKIP}  {NOT_1}"),
        1..=6,
    );
}

#[test]
fn branches_not_chosen_are_turned_too() {
    // 0 > 0 never holds, so the NOTs of 0 there are no faults.
    let (never, fault) = ("00 03  06 06 00 00 00 00 00 00", "02 01 00 00 00");
    check(
        &format!("01 00  {never}  00 02 {fault} {NOT_1}  {SKIP}"),
        &format!("01 00  {never}  00 02 {NOT_1} {fault}  {SKIP}"),
        1..=6,
    );
    // 0 ≥ 0 always holds.
    let always = "00 03  06 07 00 00 00 00 00 00";
    check(
        &format!("01 00  {always}  {NOT_1}  00 02 {fault} 00 02 {SKIP} {NOT_1}"),
        &format!("01 00  {always}  {NOT_1}  00 02 00 02 {NOT_1} {SKIP} {fault}"),
        1..=6,
    );
}

#[test]
fn bodies_never_called_are_turned_too() {
    let fault = "02 01 00 00 00";
    check(
        &format!("01 01  {SKIP}  00 02 {fault} {NOT_1}"),
        &format!("01 01  {SKIP}  00 02 {NOT_1} {fault}"),
        1..=6,
    );
    // Main calls 2 alone. Procedure 1 calls 3 twice, which nothing else does.
    let call_3 = "08 05 03";
    check(
        &format!(
            "01 03  08 05 02  00 02 {call_3} 00 02 {SKIP} {call_3}  \
             00 02 {NOT_1} {SKIP}  00 02 {fault} {NOT_4}"
        ),
        &format!(
            "01 03  08 05 02  00 02 00 02 {call_3} {SKIP} {call_3}  \
             00 02 {SKIP} {NOT_1}  00 02 {NOT_4} {fault}"
        ),
        1..=6,
    );
    // Called with an empty list alone, which "does nothing".
    check(
        &format!("01 01  09 05 01 00 00 00 01  00 02 {fault} {NOT_1}"),
        &format!("01 01  09 05 01 00 00 00 01  00 02 {NOT_1} {fault}"),
        1..=6,
    );
}

#[test]
fn removals_numbers_and_procedures_are_kept() {
    // Eight removals, of which the last but two is left, by the size left.
    let not = "03 01 08 00 01 00 01 FF FF 02 00 00 00 02 00 00 01 00 02 FF FF 00 01 00 00 01 00 \
               02 00 00";
    // Without the last and the last but two, the first.
    let case = "03 04 02 01 00 00 02 FF FF 00 01 00";
    // Procedure 2, without the size less 8 and then without the last.
    let call = "09 05 02 01 F8 FF 02 00 00 02";
    let last = "02 01 01 00 00";
    let bodies = format!("{SKIP}  {last}  {call}");
    let source = format!("01 03  00 02 {not}  00 02 {case} {last} {SKIP}  {call}  {bodies}");
    let written = format!("01 03  00 02  00 02 {call} {case} {last} {SKIP}  {not}  {bodies}");
    check(&source, &written, 9..=10);
    // The last three are flipped, but the last only where the first holds 0.
    for n in 9..=10 {
        for (word, flipped) in [(0, 7 << (n - 3)), (1, 3 << (n - 3))] {
            let end = run(&bytes(&source), n, word, WORKSPACE);
            assert_eq!(end, Ok(word ^ flipped));
        }
    }
}

#[test]
fn trees_at_the_limits_are_turned() {
    // 32 records deep, leaning left or right.
    let lean = |lean: fn(usize, tree::Statement) -> tree::Statement| {
        table(lean(32, tree::Statement::Skip), &[])
    };
    let (left, right) = (lean(leaning_left), lean(leaning_right));
    assert_ne!(left, right);
    // 255 records of 16 procedures.
    let (left_most, right_most) = (deepest(leaning_left), deepest(leaning_right));
    assert_ne!(left_most, right_most);
    for n in 1..=4 {
        check_pair(&left, &right, n);
        check_pair(&left_most, &right_most, n);
    }
    // 255 records in a tree that is the same both ways.
    let most = table(full(8), &[]);
    check_pair(&most, &most, 1);
}

/// The first tree of these bytes with its sequences turned round, and the bytes
/// behind it. It goes by the bytes alone: a record has the fields of its map
/// and the children of its kind.
fn turned(bytes: &[u8]) -> (Vec<u8>, &[u8]) {
    let (map, kind) = (bytes[0], bytes[1]);
    let removals = match map & 1 {
        0 => 0,
        _ => 1 + 3 * usize::from(bytes[2]),
    };
    let numbers = 3 * (map & 6).count_ones() as usize;
    let procedure = usize::from(map & 8 != 0);
    let (record, mut rest) = bytes.split_at(2 + removals + numbers + procedure);
    let mut children = Vec::new();
    for _ in 0..[0, 0, 2, 3, 2, 0, 0, 0, 0, 2, 2, 1][usize::from(kind)] {
        let (child, behind) = turned(rest);
        children.push(child);
        rest = behind;
    }
    if kind == 2 {
        children.reverse();
    }
    ([record.to_vec(), children.concat()].concat(), rest)
}

/// A whole table so turned; the edition and p stay.
fn turned_table(table: &[u8]) -> Vec<u8> {
    let (header, mut rest) = table.split_at(2);
    let mut written = header.to_vec();
    while !rest.is_empty() {
        let (tree, behind) = turned(rest);
        written.extend(tree);
        rest = behind;
    }
    written
}

#[test]
fn known_tables_are_undone() {
    for (table, qubits) in [
        (every_kind(), 1..=8),
        (two_in_turn(), 1..=8),
        (nested_classes(3), 1..=6),
        (sixteen_in_turn(), 1..=6),
        (full_adder(), 4..=8),
        (reversal(), 1..=8),
    ] {
        for n in qubits {
            check_pair(&table, &turned_table(&table), n);
        }
    }
    // To reverse the qubits twice is to do nothing; the bytes differ.
    let turned = turned_table(&reversal());
    assert_ne!(turned, reversal());
    for n in 1..=8 {
        assert_eq!(ends(&turned, n), ends(&reversal(), n));
    }
}

/// Tables that are refused at n = 3, at least one for each number.
fn refused() -> Vec<(u32, Vec<u8>)> {
    let skip = || tree::Statement::Skip;
    let mut refused = vec![
        (7, table(leaning_right(33, skip()), &[])),
        (7, table(sequence(full(7), full(7)), &[skip()])),
        (10, without_removal()),
        (11, two_in_sequence()),
        (12, closed_through_a_call()),
    ];
    for (number, hexadecimal) in [
        (1, ""),
        (1, "01"),
        (1, "01 00 00 02 00 00"),
        (2, "02 00 00 00"),
        (3, "01 11 00 00"),
        (4, "01 00 00 0C"),
        (4, "01 00 06 06 00 00 00 00 00 00"),
        (5, "01 00 01 02 00 00 00 00"),
        (6, "01 00 02 01 03 01 00"),
        (6, "01 00 03 01 00 00 01 00"),
        (6, "01 01 08 05 02 00 00"),
        (8, "01 00 00 00 00"),
        (10, "01 01 00 00 08 05 01"),
        (12, "01 00 02 01 00 00 00"),
    ] {
        refused.push((number, bytes(hexadecimal)));
    }
    refused
}

#[test]
fn every_refusal_comes_whatever_the_room_is() {
    let mut numbers = BTreeSet::new();
    for (number, table) in refused() {
        assert_eq!(judged(&table, 3), number);
        for room in [0, table.len().saturating_sub(1), table.len(), usize::MAX] {
            assert_eq!(inverse(&table, 3, room), Err(number), "{room} bytes");
            for n in [0, 33, 256 + 3, u32::MAX] {
                assert_eq!(inverse(&table, n, room), Err(9));
            }
        }
        numbers.insert(number);
    }
    let all = [1, 2, 3, 4, 5, 6, 7, 8, 10, 11, 12];
    assert_eq!(numbers, BTreeSet::from(all));
}

#[test]
fn the_refusals_keep_their_order() {
    // A body that is too wide and one that lacks a removal; main faults.
    let fault = "02 01 00 00 00";
    let wide = "00 02 09 05 01 00 01 00 01 09 05 01 00 01 00 01";
    let unremoved = "08 05 02";
    for (number, hexadecimal) in [
        (8, format!("01 02 {fault} {wide} {unremoved} 00")),
        (10, format!("01 02 {fault} {wide} {unremoved}")),
        (11, format!("01 02 {fault} {wide} {SKIP}")),
        (12, format!("01 02 {fault} {SKIP} {SKIP}")),
        (24, format!("01 02 {NOT_1} {SKIP} {SKIP}")),
        (1, "01".to_string()),
        (2, format!("02 11 {fault} {wide}")),
        (3, format!("01 11 {fault} {wide}")),
        (4, format!("01 02 00 02 80 0C {wide}")),
        (5, format!("01 02 00 02 80 00 {wide}")),
        (6, format!("01 02 00 02 08 05 09 80 0C {wide}")),
    ] {
        let table = bytes(&hexadecimal);
        for room in [0, table.len() - 1] {
            assert_eq!(inverse(&table, 3, room), Err(number), "{hexadecimal}");
            assert_eq!(inverse(&table, 0, room), Err(9), "{hexadecimal}");
        }
    }
    assert_eq!(refusal::TABLE_ROOM, 24);
}

#[test]
fn a_room_as_long_as_the_table_is_enough() {
    for table in [
        bytes("01 00 00 00"),
        PAIRS.to_vec(),
        every_kind(),
        sixteen_in_turn(),
    ] {
        let written = turned_table(&table);
        assert_eq!(written.len(), table.len());
        for room in 0..table.len() {
            assert_eq!(inverse(&table, 3, room), Err(24), "{room} bytes");
        }
        let length = table.len();
        for room in [length, length + 1, length + LONGEST_CIRCUIT, usize::MAX] {
            assert_eq!(inverse(&table, 3, room).as_ref(), Ok(&written));
        }
    }
}

/// A program of every kind and every base, which no reader gave.
fn written_by_hand() -> Program {
    let skip = || Box::new(Statement::Skip);
    let any = Condition::Or(
        Box::new(Condition::AtLeast(SizePlus(-1), Constant(2))),
        Box::new(Condition::Equal(LeftPlus(0), Constant(i16::MIN))),
    );
    let both = Condition::And(
        Box::new(Condition::Greater(Constant(i16::MAX), SizePlus(256))),
        Box::new(Condition::Not(Box::new(any))),
    );
    let flip = Statement::Not {
        removals: vec![],
        position: LeftPlus(-2),
    };
    let case = Statement::Qcase {
        removals: vec![SizePlus(0), LeftPlus(-1)],
        position: Constant(1),
        zero: skip(),
        one: Box::new(flip),
    };
    let call = Statement::Call {
        removals: vec![Constant(1)],
        procedure: 2,
    };
    let main = Statement::If {
        condition: both,
        yes: Box::new(Statement::Sequence(Box::new(case), Box::new(call))),
        no: skip(),
    };
    let again = Statement::Call {
        removals: vec![],
        procedure: 1,
    };
    Program {
        main,
        bodies: vec![Statement::Skip, again],
    }
}

#[test]
fn a_program_is_written_as_its_table() {
    let program = written_by_hand();
    let both = "00 09  06 06 00 FF 7F 01 00 01  00 0B  00 0A  06 07 01 FF FF 00 02 00  \
                06 08 02 00 00 00 00 80";
    let case = "03 04 02 01 00 00 02 FF FF 00 01 00  00 00  02 01 02 FE FF";
    let call = "09 05 01 00 01 00 02";
    let bodies = "00 00  08 05 01";
    let written = format!("01 02  00 03 {both}  00 02 {case} {call}  {SKIP}  {bodies}");
    assert_eq!(table_bytes(&program), bytes(&written));
    assert_eq!(read_table(&bytes(&written)), Ok(program.clone()));
    let back = format!("01 02  00 03 {both}  00 02 {call} {case}  {SKIP}  {bodies}");
    assert_eq!(table_bytes(&inverse_program(&program)), bytes(&back));
    assert_eq!(inverse_program(&inverse_program(&program)), program);
}

/// Checks an inverse on every word of 1 to `most` qubits, and gives the classes
/// that the table shows.
fn check_every_word(table: &[u8], most: u32) -> BTreeSet<&'static str> {
    let mut shown = BTreeSet::new();
    for n in 1..=most {
        let number = verdict(table, n, WORKSPACE);
        if number != 0 {
            assert_eq!(inverse(table, n, usize::MAX), Err(number));
            shown.insert("refused");
            continue;
        }
        let written = turned_table(table);
        let [there, back] = check_pair(table, &written, n);
        shown.insert("accepted");
        shown.insert(if written == table {
            "same bytes"
        } else {
            "other bytes"
        });
        shown.insert(if there == back {
            "same run"
        } else {
            "another run"
        });
    }
    if shown.contains("accepted") {
        shown.extend(classes(&read_table(table).unwrap(), most));
    }
    shown
}

#[test]
fn random_tables_are_undone_on_every_word() {
    let mut random = Random::from_seed(51);
    let mut counts = Counts::new();
    for turn in 0..4_000 {
        let made = match turn % 4 {
            0 => program(&mut random, &SMALL),
            1 => program(&mut random, &MERGING),
            2 => program(&mut random, &LARGE),
            _ => program_by_size_left(&mut random, 4),
        };
        let most = if turn % 4 == 2 { 4 } else { 6 };
        add(&mut counts, check_every_word(&encode(&made), most));
    }
    let least = [
        ("accepted", 3_500),
        ("refused", 300),
        ("same bytes", 300),
        ("other bytes", 3_000),
        ("same run", 3_000),
        ("another run", 350),
        ("sequence in a sequence", 1_000),
        ("sequence in an if", 1_500),
        ("sequence in a qcase", 1_500),
        ("sequence in a branch not chosen", 100),
        ("sequence that main never comes to", 700),
    ];
    assert_met(&counts, &least);
}

/// Checks an inverse on some words of n qubits and gives the class it shows.
/// Only where the circuit fits a room are the runs soon over.
fn check_some_words(table: &[u8], n: u32, random: &mut Random) -> &'static str {
    if compile(table, n, LONGEST_CIRCUIT, WORKSPACE).is_err() {
        return "refused or too large";
    }
    let written = inverse(table, n, table.len()).unwrap();
    assert_eq!(written, turned_table(table));
    assert_eq!(inverse(&written, n, table.len()).as_deref(), Ok(table));
    let mut moved = false;
    for _ in 0..4 {
        let word = random.word() & ((1 << n) - 1);
        for (first, second) in [(table, written.as_slice()), (&written, table)] {
            let between = run(first, n, word, WORKSPACE).unwrap();
            assert_eq!(run(second, n, between, WORKSPACE), Ok(word));
            moved |= between != word;
        }
    }
    if moved {
        "words moved"
    } else {
        "words kept"
    }
}

#[test]
fn random_tables_on_many_qubits_are_undone_on_some_words() {
    let mut random = Random::from_seed(52);
    let mut counts = Counts::new();
    for turn in 0..600 {
        let table = encode(&program(&mut random, &[SMALL, MERGING, LARGE][turn % 3]));
        for n in [9, 16, 31, 32] {
            add(&mut counts, [check_some_words(&table, n, &mut random)]);
        }
    }
    let least = [
        ("refused or too large", 50),
        ("words moved", 1_000),
        ("words kept", 500),
    ];
    assert_met(&counts, &least);
}

/// The classes of answers, by their numbers.
const ANSWERS: [&str; 13] = [
    "accepted", "1", "2", "3", "4", "5", "6", "7", "8", "9", "10", "11", "12",
];

/// Checks the answer to a table on n qubits for rooms of many lengths, and
/// gives the classes that it shows.
fn check_answer(table: &[u8], n: u32) -> Vec<&'static str> {
    let number = verdict(table, n, WORKSPACE);
    let length = table.len();
    let short = if number == 0 { 24 } else { number };
    for room in [0, length / 2, length.saturating_sub(1)] {
        if room < length {
            assert_eq!(inverse(table, n, room), Err(short));
        }
    }
    for room in [length, length + 1, usize::MAX] {
        let answer = inverse(table, n, room);
        assert_eq!(answer.as_ref().err().copied().unwrap_or(0), number);
        if let Ok(written) = answer {
            assert_eq!(written, turned_table(table));
        }
    }
    let mut shown = vec![ANSWERS[number as usize]];
    shown.extend((number == 0).then_some("24"));
    shown
}

/// Checks the two laws of the writer, where bytes can be read: writing what was
/// read gives the bytes, and reading what is written gives the program. An
/// inverse has the verdict of its source, whatever that is.
fn check_writer(table: &[u8]) -> Vec<&'static str> {
    let Ok(read) = read_table(table) else {
        return vec!["not read"];
    };
    assert_eq!(table_bytes(&read), table);
    let inverted = inverse_program(&read);
    let written = table_bytes(&inverted);
    assert_eq!(written, turned_table(table));
    assert_eq!(read_table(&written).as_ref(), Ok(&inverted));
    assert_eq!(inverse_program(&inverted), read);
    for n in 1..=4 {
        let number = verdict(table, n, WORKSPACE);
        assert_eq!(verdict(&written, n, WORKSPACE), number);
    }
    vec![if read == inverted { "kept" } else { "turned" }]
}

/// A random table: mostly accepted, wild, too long, or damaged.
fn any_table(random: &mut Random, turn: usize) -> Vec<u8> {
    let crowded = Shape {
        records: 22,
        slips: 6,
        ..LARGE
    };
    let made = match turn % 6 {
        0 => program(random, &SMALL),
        1 => program(random, &LARGE),
        2 => program_by_size_left(random, 3),
        3 => wild_program_by_size_left(random),
        4 => program(random, &crowded),
        _ => wild_program(random, &SMALL),
    };
    let table = encode(&made);
    match turn / 6 % 2 {
        0 => table,
        _ => damaged(random, &table),
    }
}

#[test]
fn every_answer_comes_in_its_order() {
    let mut random = Random::from_seed(53);
    let mut counts = Counts::new();
    for turn in 0..12_000 {
        let table = any_table(&mut random, turn);
        for n in [0, 1, 2, 3, 5, 33] {
            add(&mut counts, check_answer(&table, n));
        }
    }
    let all = ANSWERS.into_iter().chain(["24"]);
    let least: Vec<(&str, usize)> = all.map(|answer| (answer, 30)).collect();
    assert_met(&counts, &least);
    assert_met(&counts, &[("accepted", 10_000), ("12", 3_000)]);
}

#[test]
fn what_is_written_is_read_and_what_was_read_is_written() {
    let mut random = Random::from_seed(54);
    let mut counts = Counts::new();
    for turn in 0..12_000 {
        add(&mut counts, check_writer(&any_table(&mut random, turn)));
    }
    let least = [("not read", 3_000), ("kept", 400), ("turned", 4_000)];
    assert_met(&counts, &least);
}

#[test]
fn every_single_change_is_answered_and_written_back() {
    let mut counts = Counts::new();
    let five_nots = procedure(in_order(vec![not(1); 5]));
    for table in [PAIRS.to_vec(), every_kind(), five_nots] {
        for changed in single_changes(&table).chain(truncations(&table)) {
            add(&mut counts, check_writer(&changed));
            add(&mut counts, check_answer(&changed, 4));
        }
    }
    let least = [
        ("not read", 20_000),
        ("kept", 3_000),
        ("turned", 6_000),
        ("24", 5_000),
    ];
    assert_met(&counts, &least);
}
