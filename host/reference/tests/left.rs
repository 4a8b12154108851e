//! Document 02, S-2, the size of what is left: "Base 2 of a number adds the
//! size of the list left by the removals already done in that record; in a
//! comparison it equals base 1." Expected values are worked out by hand from
//! this sentence.

mod judged;

use foq_generator::programs::{program, LARGE, MERGING, SMALL};
use foq_generator::tree::encode;
use foq_generator::Random;
use foq_reference::{circuit_run, compile, listing, read_table, remaining, run, Number, Statement};
use judged::{bytes, judged, WORKSPACE};
use Number::{Constant, LeftPlus, SizePlus};

/// The longest room that is used.
const ROOM: usize = 65_536;

/// "0 skip".
const SKIP: [u8; 2] = [0, 0];
/// The kinds of the comparisons a > b, a ≥ b and a = b.
const GREATER: u8 = 6;
const AT_LEAST: u8 = 7;
const EQUAL: u8 = 8;

/// "A number is a base byte and a signed 16-bit constant, little-endian."
fn number(number: Number) -> Vec<u8> {
    let (base, constant) = match number {
        Constant(constant) => (0, constant),
        SizePlus(constant) => (1, constant),
        LeftPlus(constant) => (2, constant),
    };
    [&[base][..], &constant.to_le_bytes()].concat()
}

/// A map byte, a kind byte and the removals, if there are any. `map` has the
/// bits of the fields that follow.
fn head(map: u8, kind: u8, removals: &[Number]) -> Vec<u8> {
    if removals.is_empty() {
        return vec![map, kind];
    }
    let mut head = vec![map | 1, kind, removals.len() as u8];
    head.extend(removals.iter().flat_map(|&removal| number(removal)));
    head
}

/// "1 NOT, a".
fn not(removals: &[Number], position: Number) -> Vec<u8> {
    [head(2, 1, removals), number(position)].concat()
}

/// "4 qcase, a, then the zero and one statements".
fn qcase(removals: &[Number], position: Number, zero: &[u8], one: &[u8]) -> Vec<u8> {
    let record = [head(2, 4, removals), number(position)].concat();
    [&record, zero, one].concat()
}

/// "5 call, procedure".
fn call(removals: &[Number], procedure: u8) -> Vec<u8> {
    [head(8, 5, removals), vec![procedure]].concat()
}

/// "2 sequence, two statements".
fn sequence(first: &[u8], second: &[u8]) -> Vec<u8> {
    [&[0, 2], first, second].concat()
}

/// "3 if, a condition, then yes and no"; the condition compares two numbers.
fn choose(kind: u8, a: Number, b: Number, yes: &[u8], no: &[u8]) -> Vec<u8> {
    let comparison = [head(6, kind, &[]), number(a), number(b)].concat();
    [&[0, 3], comparison.as_slice(), yes, no].concat()
}

/// A table of a main statement and bodies; procedure 1 stands first.
fn table(main: &[u8], bodies: &[Vec<u8>]) -> Vec<u8> {
    [&[1, bodies.len() as u8], main, &bodies.concat()].concat()
}

/// The table of a procedure 1 that main calls with its whole list.
fn procedure(body: &[u8]) -> Vec<u8> {
    table(&call(&[], 1), &[body.to_vec()])
}

/// The end word of a run; the circuit gives it too, where there is one.
fn ran(table: &[u8], n: u32, word: u64) -> Result<u64, u32> {
    let end = run(table, n, word, WORKSPACE);
    assert_eq!(judged(table, n), end.err().unwrap_or(0));
    if let Ok(end) = end {
        let circuit = compile(table, n, ROOM, WORKSPACE).unwrap();
        let block = circuit_run(&circuit, word).unwrap();
        assert_eq!(block.wires[..8], end.to_le_bytes());
    }
    end
}

fn listed(table: &[u8], n: u8) -> String {
    String::from_utf8(listing(&[&[n], table].concat())).unwrap()
}

/// Checks what removals leave of the list of qubits 1 to 5.
fn check_left(removals: &[Number], left: &[u8]) {
    assert_eq!(remaining(&[1, 2, 3, 4, 5], removals), left, "{removals:?}");
}

#[test]
fn base_2_is_read() {
    let read = read_table(&bytes("01 00 03 01 02 02 FF FF 00 01 00 02 00 80")).unwrap();
    let expected = Statement::Not {
        removals: vec![LeftPlus(-1), Constant(1)],
        position: LeftPlus(-32_768),
    };
    assert_eq!(read.main, expected);
}

#[test]
fn in_the_first_removal_base_2_equals_base_1() {
    check_left(&[LeftPlus(0)], &[1, 2, 3, 4]);
    check_left(&[LeftPlus(-2)], &[1, 2, 4, 5]);
    check_left(&[LeftPlus(-4)], &[2, 3, 4, 5]);
    check_left(&[LeftPlus(-5)], &[]);
    check_left(&[LeftPlus(1)], &[]);
    for constant in (-8..=8).chain([i16::MIN, i16::MAX]) {
        for size in 0..=8 {
            let list: Vec<u8> = (1..=size).collect();
            let left = remaining(&list, &[LeftPlus(constant)]);
            assert_eq!(left, remaining(&list, &[SizePlus(constant)]));
        }
    }
}

#[test]
fn in_the_second_removal_base_2_adds_the_size_behind_the_first() {
    // Behind the first removal 2, 3, 4 and 5 are left.
    check_left(&[Constant(1), LeftPlus(0)], &[2, 3, 4]);
    check_left(&[Constant(1), LeftPlus(-1)], &[2, 3, 5]);
    check_left(&[Constant(1), LeftPlus(-3)], &[3, 4, 5]);
    check_left(&[Constant(1), LeftPlus(-4)], &[]);
    check_left(&[Constant(1), LeftPlus(1)], &[]);
    // Base 1 keeps to the whole list's 5.
    check_left(&[Constant(1), SizePlus(0)], &[]);
    check_left(&[Constant(1), SizePlus(-1)], &[2, 3, 4]);
}

#[test]
fn in_later_removals_base_2_adds_the_size_behind_all_before() {
    let last = |count| vec![LeftPlus(0); count];
    check_left(&last(2), &[1, 2, 3]);
    check_left(&last(3), &[1, 2]);
    check_left(&last(4), &[1]);
    check_left(&last(5), &[]);
    check_left(&last(8), &[]);
    // Positions 4 of 5, 3 of 4 and 2 of 3.
    check_left(&[LeftPlus(-1); 3], &[1, 5]);
    // Positions 1 of 5, 1 of 4, 1 of 3.
    check_left(&[LeftPlus(-4), LeftPlus(-3), LeftPlus(-2)], &[4, 5]);
    // Position 1 of 5, then 0 of 4.
    check_left(&[LeftPlus(-4), LeftPlus(-4), LeftPlus(-2)], &[]);
    // Eight removals, the last of position 25 of 25.
    let long: Vec<u8> = (1..=32).collect();
    assert_eq!(remaining(&long, &last(8)), long[..24]);
}

#[test]
fn bases_may_be_mixed_in_a_record() {
    // 5 − 4 = 1, then 4 + 0 = 4, then 5 − 3 = 2.
    check_left(&[SizePlus(-4), LeftPlus(0), SizePlus(-3)], &[2, 4]);
    // 5 − 2 = 3, then 5 − 1 = 4, then 1, then 2 + 0 = 2.
    let mixed = [LeftPlus(-2), SizePlus(-1), Constant(1), LeftPlus(0)];
    check_left(&mixed, &[2]);
    // 5 − 3 = 2, then 4 − 3 = 1, then 5 − 3 = 2 again.
    check_left(&[SizePlus(-3), LeftPlus(-3), SizePlus(-3)], &[3, 5]);
    // Of 3, 4 and 5 position 3 − 1 = 2, behind 5 − 4 = 1 and 1.
    let behind = |position| not(&[SizePlus(-4), Constant(1)], position);
    let flipped = |position| ran(&table(&behind(position), &[]), 5, 0);
    assert_eq!(flipped(LeftPlus(-1)), Ok(0b01000));
    assert_eq!(flipped(SizePlus(-3)), Ok(0b01000));
    assert_eq!(flipped(Constant(2)), Ok(0b01000));
    assert_eq!(flipped(SizePlus(-1)), Err(12));
}

#[test]
fn an_emptied_list_has_size_0() {
    // Removals behind an emptying one go from nothing and leave nothing.
    for emptying in [Constant(0), Constant(6), LeftPlus(-5), LeftPlus(1)] {
        for constant in [-5, -1, 0, 1, 5] {
            check_left(&[emptying, LeftPlus(constant)], &[]);
            check_left(&[Constant(1), emptying, LeftPlus(constant)], &[]);
        }
    }
    // "A call with an empty list does nothing"; its body would fault.
    let body = not(&[], Constant(0));
    for removals in [[Constant(0), LeftPlus(1)], [LeftPlus(0), LeftPlus(1)]] {
        let calls = table(&call(&removals, 1), std::slice::from_ref(&body));
        assert_eq!(ran(&calls, 3, 0b101), Ok(0b101));
        assert_eq!(listed(&calls, 3), "3 0 3\n");
    }
    // A position of the empty list touches nothing: 0 + 1 is past its end.
    for constant in [-1, 0, 1, 3] {
        let emptied = table(&not(&[Constant(0)], LeftPlus(constant)), &[]);
        assert_eq!(ran(&emptied, 3, 0), Err(12));
    }
    // One by one: with nothing left, the last position is 0.
    let one_by_one = |count| not(&vec![LeftPlus(0); count], LeftPlus(0));
    assert_eq!(ran(&table(&one_by_one(2), &[]), 3, 0), Ok(0b001));
    assert_eq!(ran(&table(&one_by_one(3), &[]), 3, 0), Err(12));
}

#[test]
fn a_not_without_removals_goes_by_the_whole_list() {
    for n in 1..=8 {
        let at = |constant| table(&not(&[], LeftPlus(constant)), &[]);
        let last = 1 << (n - 1);
        assert_eq!(ran(&at(0), n, 0), Ok(last));
        assert_eq!(ran(&at(1 - n as i16), n, 0), Ok(1));
        for outside in [1, -(n as i16), i16::MIN, i16::MAX] {
            assert_eq!(ran(&at(outside), n, 0), Err(12));
        }
    }
    assert_eq!(ran(&bytes("01 00 02 01 02 00 00"), 3, 0), Ok(0b100));
}

#[test]
fn position_a_of_a_not_goes_by_what_all_removals_left() {
    let flipped = |removals: &[Number], position| ran(&table(&not(removals, position), &[]), 4, 0);
    // Of 2, 3 and 4 the last, the first, and what is outside.
    assert_eq!(flipped(&[Constant(1)], LeftPlus(0)), Ok(0b1000));
    assert_eq!(flipped(&[Constant(1)], LeftPlus(-2)), Ok(0b0010));
    assert_eq!(flipped(&[Constant(1)], LeftPlus(-3)), Err(12));
    assert_eq!(flipped(&[Constant(1)], LeftPlus(1)), Err(12));
    // Of 1, 2 and 3 the last.
    assert_eq!(flipped(&[LeftPlus(0)], LeftPlus(0)), Ok(0b0100));
    // Of 3 and 4.
    let twice = [Constant(1), Constant(1)];
    assert_eq!(flipped(&twice, LeftPlus(0)), Ok(0b1000));
    assert_eq!(flipped(&twice, LeftPlus(-1)), Ok(0b0100));
    assert_eq!(flipped(&twice, LeftPlus(-2)), Err(12));
    assert_eq!(flipped(&twice, LeftPlus(1)), Err(12));
    // Of 1 and 4: positions 3 of 4 and 2 of 3 are removed.
    let inner = [LeftPlus(-1), LeftPlus(-1)];
    assert_eq!(flipped(&inner, LeftPlus(-1)), Ok(0b0001));
    assert_eq!(flipped(&inner, LeftPlus(0)), Ok(0b1000));
    // Of 2 alone.
    let three = [Constant(1), LeftPlus(0), LeftPlus(0)];
    assert_eq!(flipped(&three, LeftPlus(0)), Ok(0b0010));
    assert_eq!(flipped(&three, LeftPlus(1)), Err(12));
    // Base 1 keeps to the whole list's 4.
    assert_eq!(flipped(&[Constant(1)], SizePlus(0)), Err(12));
    assert_eq!(flipped(&twice, SizePlus(-2)), Ok(0b1000));
}

#[test]
fn the_last_of_what_is_left_is_there_from_n_2_on() {
    let rest = table(&not(&[Constant(1)], LeftPlus(0)), &[]);
    assert_eq!(judged(&rest, 1), 12);
    for n in 2..=8 {
        assert_eq!(ran(&rest, n, 0), Ok(1 << (n - 1)));
    }
    assert_eq!(judged(&rest, 32), 0);
}

#[test]
fn position_a_of_a_qcase_goes_by_what_all_removals_left() {
    let (first, second) = (not(&[], Constant(1)), not(&[], Constant(2)));
    let asks = |removals: &[Number]| table(&qcase(removals, LeftPlus(0), &first, &second), &[]);
    // Of 2, 3 and 4 the last decides.
    let behind_one = asks(&[Constant(1)]);
    assert_eq!(ran(&behind_one, 4, 0b0000), Ok(0b0001));
    assert_eq!(ran(&behind_one, 4, 0b0100), Ok(0b0101));
    assert_eq!(ran(&behind_one, 4, 0b1000), Ok(0b1010));
    assert_eq!(listed(&behind_one, 4), "4 0 6\n1 X 1 -4\n2 X 2 +4\n");
    // Of 2 and 3 the last decides.
    let behind_two = asks(&[Constant(1), LeftPlus(0)]);
    assert_eq!(ran(&behind_two, 4, 0b1000), Ok(0b1001));
    assert_eq!(ran(&behind_two, 4, 0b0100), Ok(0b0110));
    assert_eq!(listed(&behind_two, 4), "4 0 6\n1 X 1 -3\n2 X 2 +3\n");
    // Of 2 alone: the one branch touches the closed qubit 2.
    assert_eq!(
        judged(&asks(&[Constant(1), LeftPlus(0), LeftPlus(0)]), 4),
        12
    );
    // Of nothing.
    assert_eq!(judged(&asks(&[Constant(0)]), 4), 12);
}

#[test]
fn removals_of_another_record_do_not_count() {
    // The qcase closes 3, the last of 2 and 3. Inside, the whole list is 1 to
    // 4 again, so its last is 4, and the last but one is closed.
    let removals = [Constant(1), LeftPlus(0)];
    let closes = |zero: &[u8]| table(&qcase(&removals, LeftPlus(0), zero, &SKIP), &[]);
    let last = closes(&not(&[], LeftPlus(0)));
    assert_eq!(ran(&last, 4, 0b0000), Ok(0b1000));
    assert_eq!(ran(&last, 4, 0b0100), Ok(0b0100));
    assert_eq!(judged(&closes(&not(&[], LeftPlus(-1))), 4), 12);
    assert_eq!(judged(&closes(&not(&removals, LeftPlus(0))), 4), 12);
    let asks = |size| {
        let flips = not(&[], LeftPlus(0));
        closes(&choose(EQUAL, LeftPlus(0), Constant(size), &flips, &SKIP))
    };
    assert_eq!(ran(&asks(4), 4, 0), Ok(0b1000));
    assert_eq!(ran(&asks(2), 4, 0), Ok(0));
    // Nor do those of the statement before, in a sequence.
    let twice = sequence(&not(&removals, LeftPlus(0)), &not(&[], LeftPlus(0)));
    assert_eq!(ran(&table(&twice, &[]), 4, 0), Ok(0b1100));
}

#[test]
fn a_body_gets_what_base_2_left() {
    // Of 1 to 4, then 2 to 4, then 2 and 3 are left.
    let removals = [Constant(1), LeftPlus(0)];
    let touches = |position| table(&call(&removals, 1), &[not(&[], position)]);
    assert_eq!(ran(&touches(Constant(1)), 4, 0), Ok(0b0010));
    assert_eq!(ran(&touches(Constant(2)), 4, 0), Ok(0b0100));
    assert_eq!(ran(&touches(Constant(3)), 4, 0), Err(12));
    assert_eq!(ran(&touches(Constant(0)), 4, 0), Err(12));
    // Both sizes of the body are those of its whole list.
    assert_eq!(ran(&touches(LeftPlus(0)), 4, 0), Ok(0b0100));
    assert_eq!(ran(&touches(SizePlus(0)), 4, 0), Ok(0b0100));
    assert_eq!(ran(&touches(LeftPlus(-1)), 4, 0), Ok(0b0010));
    assert_eq!(ran(&touches(LeftPlus(1)), 4, 0), Err(12));
    let printed = "4 1 8\n1 X 5\n2 X 3 +5\n3 X 5\n";
    assert_eq!(listed(&touches(LeftPlus(0)), 4), printed);
    // And the body's removals go on from there: of 3 alone.
    let inner = not(&[LeftPlus(-1)], LeftPlus(0));
    let on = table(&call(&removals, 1), &[inner]);
    assert_eq!(ran(&on, 4, 0), Ok(0b0100));
    // Called with 1 and 2 instead, it touches 2.
    let last_two = call(&[LeftPlus(0), LeftPlus(0)], 1);
    let on = table(&last_two, &[not(&[LeftPlus(-1)], LeftPlus(0))]);
    assert_eq!(ran(&on, 4, 0), Ok(0b0010));
}

#[test]
fn a_removal_with_base_2_is_a_removal() {
    // A procedure flips its last qubit, then goes on without it.
    let flips = sequence(&not(&[], LeftPlus(0)), &call(&[LeftPlus(0)], 1));
    for n in 1..=6 {
        assert_eq!(ran(&procedure(&flips), n, 0), Ok((1 << n) - 1));
    }
    // Without its last two: the last of 6, of 4 and of 2.
    let rest = call(&[LeftPlus(0), LeftPlus(0)], 1);
    let every_other = sequence(&not(&[], LeftPlus(0)), &rest);
    assert_eq!(ran(&procedure(&every_other), 6, 0), Ok(0b101010));
    // With base 1 the second removal is past the end, and the calls end.
    let rest = call(&[SizePlus(0), SizePlus(0)], 1);
    let once = sequence(&not(&[], LeftPlus(0)), &rest);
    assert_eq!(ran(&procedure(&once), 6, 0), Ok(0b100000));
    let wide = sequence(&call(&[LeftPlus(0)], 1), &call(&[LeftPlus(0)], 1));
    assert_eq!(judged(&procedure(&wide), 3), 11);
}

#[test]
fn merged_lists_go_by_base_2() {
    // "Later list [2,4] against first list [3,4] gives one swap, 2 with 3."
    // From 1 to 4: 4 − 3 = 1, then of 2, 3 and 4 position 3 − 2 = 1 or
    // 3 − 1 = 2.
    let first = call(&[LeftPlus(-3), LeftPlus(-2)], 1);
    let later = call(&[LeftPlus(-3), LeftPlus(-1)], 1);
    let splits = qcase(&[], LeftPlus(-3), &first, &later);
    let flips = qcase(&[], LeftPlus(0), &not(&[LeftPlus(0)], LeftPlus(0)), &SKIP);
    let swapping = procedure(&choose(GREATER, LeftPlus(0), Constant(2), &splits, &flips));
    let printed = "4 3 18\n1 X 5\n2 X 6 -1 +5\n3 X 7 +1 +5\n4 X 6 +7\n5 S 2 3 +7\n6 X 3 -4 +6\n\
                   7 S 2 3 +7\n8 X 6 +7\n9 X 7 +1 +5\n10 X 6 -1 +5\n11 X 5\n";
    assert_eq!(listed(&swapping, 4), printed);
    for word in 0..16 {
        // Where 4 holds 0, qubit 3 is flipped, or 2 if 1 holds 1.
        let flipped = match (word & 8, word & 1) {
            (0, 0) => 4,
            (0, _) => 2,
            _ => 0,
        };
        assert_eq!(ran(&swapping, 4, word), Ok(word ^ flipped));
    }
}

#[test]
fn in_a_comparison_base_2_equals_base_1() {
    let holds = |kind, a, b, n| {
        let main = choose(kind, a, b, &not(&[], Constant(1)), &SKIP);
        ran(&table(&main, &[]), n, 0) == Ok(1)
    };
    for n in 1..=6u32 {
        assert!(!holds(GREATER, LeftPlus(0), SizePlus(0), n));
        assert!(!holds(GREATER, SizePlus(0), LeftPlus(0), n));
        assert!(holds(AT_LEAST, LeftPlus(0), SizePlus(0), n));
        assert!(holds(AT_LEAST, SizePlus(0), LeftPlus(0), n));
        assert!(holds(EQUAL, LeftPlus(0), SizePlus(0), n));
        assert!(holds(EQUAL, LeftPlus(-2), SizePlus(-2), n));
        assert!(holds(GREATER, LeftPlus(1), SizePlus(0), n));
        assert!(!holds(AT_LEAST, LeftPlus(-1), SizePlus(0), n));
        assert!(!holds(EQUAL, LeftPlus(1), SizePlus(0), n));
        assert!(holds(AT_LEAST, LeftPlus(7), LeftPlus(7), n));
        assert!(holds(GREATER, LeftPlus(7), LeftPlus(6), n));
        // Against constants: is n over, at least or just 3?
        assert_eq!(holds(GREATER, LeftPlus(0), Constant(3), n), n > 3);
        assert_eq!(holds(GREATER, Constant(3), LeftPlus(0), n), 3 > n);
        assert_eq!(holds(AT_LEAST, LeftPlus(-1), Constant(2), n), n >= 3);
        assert_eq!(holds(AT_LEAST, Constant(2), LeftPlus(-1), n), 3 >= n);
        assert_eq!(holds(EQUAL, LeftPlus(2), Constant(5), n), n == 3);
        assert_eq!(holds(EQUAL, Constant(5), LeftPlus(2), n), n == 3);
    }
}

#[test]
fn in_a_body_a_comparison_goes_by_its_whole_list() {
    // The body has 2 of the 4 qubits; the call's removals are no removals of
    // the comparison.
    let asks = |size| {
        let flips = not(&[], Constant(1));
        let body = choose(EQUAL, LeftPlus(0), Constant(size), &flips, &SKIP);
        table(&call(&[Constant(1), LeftPlus(0)], 1), &[body])
    };
    assert_eq!(ran(&asks(2), 4, 0), Ok(0b0010));
    for size in [0, 1, 3, 4] {
        assert_eq!(ran(&asks(size), 4, 0), Ok(0));
    }
}

/// For each place of a number, a table that ends before its base byte, and
/// what makes it whole behind the number.
const PLACES: [(&str, &str); 9] = [
    ("01 00 02 01", ""),
    ("01 00 03 01 01", "00 01 00"),
    ("01 00 03 01 02 00 01 00", "00 01 00"),
    ("01 00 03 01 01 00 01 00", ""),
    ("01 00 02 04", "00 00 00 00"),
    ("01 00 03 04 01", "00 01 00 00 00 00 00"),
    ("01 01 09 05 01", "01 00 00"),
    ("01 00 00 03 06 06", "00 00 00 00 00 00 00"),
    ("01 00 00 03 06 08 00 00 00", "00 00 00 00"),
];

#[test]
fn bases_0_to_2_are_read_in_every_place() {
    for (before, behind) in PLACES {
        for base in 0..=2 {
            let whole = [bytes(before), vec![base, 1, 0], bytes(behind)].concat();
            assert!(read_table(&whole).is_ok(), "{before}, base {base}");
        }
    }
}

#[test]
fn base_3_and_above_give_6_in_every_place() {
    for (before, behind) in PLACES {
        for base in 3..=255 {
            let whole = [bytes(before), vec![base, 1, 0], bytes(behind)].concat();
            assert_eq!(judged(&whole, 3), 6, "{before}, base {base}");
        }
    }
    assert_eq!(judged(&bytes("01 00 02 01 03 01 00"), 3), 6);
    assert_eq!(judged(&bytes("01 00 02 01 FF 01 00"), 3), 6);
}

#[test]
fn a_base_is_tested_before_its_constant_is_looked_for() {
    for (before, _) in PLACES {
        let ending = |ending: &[u8]| judged(&[&bytes(before), ending].concat(), 3);
        assert_eq!(ending(&[]), 1, "{before}");
        for base in 0..=2 {
            assert_eq!(ending(&[base]), 1, "{before}, base {base}");
            assert_eq!(ending(&[base, 1]), 1, "{before}, base {base}");
        }
        for base in 3..=255 {
            assert_eq!(ending(&[base]), 6, "{before}, base {base}");
            assert_eq!(ending(&[base, 1]), 6, "{before}, base {base}");
        }
    }
    for (number, hexadecimal) in [
        (1, "01 00 02 01"),
        (1, "01 00 02 01 02"),
        (1, "01 00 02 01 02 00"),
        (0, "01 00 02 01 02 00 00"),
        (6, "01 00 02 01 03"),
        (6, "01 00 02 01 FF"),
    ] {
        assert_eq!(judged(&bytes(hexadecimal), 3), number, "{hexadecimal}");
    }
}

/// Numbers of every base with small constants.
fn small_numbers() -> Vec<Number> {
    let bases = [Constant, SizePlus, LeftPlus];
    bases.iter().flat_map(|base| (-3..=3).map(base)).collect()
}

/// The constant that a table writer would have worked out by hand, where the
/// whole list has one size and the list left another.
fn by_hand(number: Number, whole: i16, left: i16) -> i16 {
    match number {
        Constant(constant) => constant,
        SizePlus(constant) => whole + constant,
        LeftPlus(constant) => left + constant,
    }
}

/// "Table writers compute by hand how long a list is after removals." A NOT
/// behind two removals, with numbers of any base, does what it does with the
/// constants worked out by hand.
#[test]
fn base_2_does_what_a_hand_would() {
    for first in small_numbers() {
        for second in small_numbers() {
            for position in small_numbers() {
                for n in [2, 3, 4] {
                    compare_with_hand([first, second], position, n);
                }
            }
        }
    }
}

fn compare_with_hand(removals: [Number; 2], position: Number, n: i16) {
    let mut left = n;
    let constants = removals.map(|removal| {
        let at = by_hand(removal, n, left);
        left = if 1 <= at && at <= left { left - 1 } else { 0 };
        Constant(at)
    });
    let constant = Constant(by_hand(position, n, left));
    let written = table(&not(&removals, position), &[]);
    let computed = table(&not(&constants, constant), &[]);
    let flipped = |table: &[u8]| run(table, n as u32, 0, WORKSPACE);
    assert_eq!(flipped(&written), flipped(&computed), "{removals:?}");
}

/// A table with each number of base 1 turned to base 2, and how many there
/// are. As long as no removal empties the list, each takes one entry, so
/// behind k removals the whole list is k longer than the list left; and of an
/// empty list no position is anything. Records stand one after the other, so
/// no tree is needed to find their numbers.
fn in_base_2(table: &[u8]) -> (Vec<u8>, usize) {
    let mut table = table.to_vec();
    let (mut at, mut turned) = (2, 0);
    while at < table.len() {
        let map = table[at];
        at += 2;
        let mut removals = 0;
        if map & 1 != 0 {
            removals = usize::from(table[at]);
            at += 1;
        }
        let numbers = removals + (map & 6).count_ones() as usize;
        for index in 0..numbers {
            if table[at] == 1 {
                let constant = i16::from_le_bytes([table[at + 1], table[at + 2]]);
                let behind = index.min(removals) as i16;
                let left = LeftPlus(constant.saturating_add(behind));
                table[at..at + 3].copy_from_slice(&number(left));
                turned += 1;
            }
            at += 3;
        }
        at += usize::from(map & 8 != 0);
    }
    (table, turned)
}

#[test]
fn random_tables_mean_the_same_in_base_2() {
    let mut random = Random::from_seed(31);
    let (mut turned, mut accepted) = (0, 0);
    for turn in 0..4_500 {
        let mut shape = [SMALL, MERGING, LARGE][turn % 3];
        shape.slips = [0, 6][turn % 2];
        let table = encode(&program(&mut random, &shape));
        let (left, numbers) = in_base_2(&table);
        turned += usize::from(numbers > 0);
        for n in [1, 2, 3, 5] {
            assert_eq!(judged(&left, n), judged(&table, n));
            let circuit = compile(&left, n, ROOM, WORKSPACE);
            assert_eq!(circuit, compile(&table, n, ROOM, WORKSPACE));
            if numbers > 0 && circuit.is_ok() {
                accepted += 1;
                let word = random.word() & ((1 << n) - 1);
                assert_eq!(ran(&left, n, word), run(&table, n, word, WORKSPACE));
            }
        }
    }
    println!("turned {turned}, accepted {accepted}");
    assert!(turned > 2_000 && accepted > 2_000);
}
