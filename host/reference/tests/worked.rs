//! The worked programs of document 01, a table for each refusal, and the order
//! of refusals where two apply.

mod judged;

use foq_generator::equal_lengths::equal_lengths;
use foq_generator::tables::{
    closed_through_a_call, full, leaning_right, negations, one_in_each_branch, two_in_sequence,
    without_removal,
};
use foq_generator::tree::{
    call, case, choose, longer_than, not, procedure, sequence, table, Number, Statement,
};
use foq_reference::{
    circuit_run, compile, emission, gate_bound, listing, plain_verdict, read_circuit, read_table,
    run, verdict, Action, Control, Emission,
};
use judged::{bytes, judged, WORKSPACE};
use Number::{Constant, SizePlus};

/// The longest room that is used.
const ROOM: usize = 65_536;

/// PAIRS, as the document prints it.
const PAIRS: &str = "01 01 08 05 01 00 03 06 06 01 00 00 00 01 00 02 04 00 01 00 02 04 00 02 00 \
                     09 05 02 00 01 00 00 01 00 01 00 00 02 04 00 02 00 00 00 09 05 02 00 01 00 \
                     00 01 00 01 02 01 00 01 00";

fn emitted(table: &[u8], n: u32) -> Emission {
    emission(&read_table(table).unwrap(), n, ROOM).unwrap()
}

fn listed(table: &[u8], n: u8) -> String {
    String::from_utf8(listing(&[&[n], table].concat())).unwrap()
}

/// Checks that the circuit does on every word what the run does.
fn compare_all_words(table: &[u8], n: u32) {
    let circuit = compile(table, n, ROOM, WORKSPACE).unwrap();
    for word in 0..1u64 << n {
        let end = run(table, n, word, WORKSPACE).unwrap();
        let mut wires = [0; 32];
        wires[..8].copy_from_slice(&end.to_le_bytes());
        assert_eq!(circuit_run(&circuit, word).unwrap().wires, wires);
    }
}

#[test]
fn pairs_has_59_bytes_and_is_the_tree_of_the_figure() {
    let again = || call(1, &[1, 1]);
    let body = choose(
        longer_than(1),
        case(
            1,
            case(2, again(), Statement::Skip),
            case(2, Statement::Skip, again()),
        ),
        not(1),
    );
    let pairs = bytes(PAIRS);
    assert_eq!(pairs.len(), 59);
    assert_eq!(pairs, procedure(body));
}

#[test]
fn pairs_runs_as_printed() {
    let pairs = bytes(PAIRS);
    for (n, word, end) in [
        (3, 0, 4),
        (3, 1, 1),
        (3, 3, 7),
        (3, 7, 3),
        (1, 0, 1),
        (2, 3, 3),
    ] {
        assert_eq!(run(&pairs, n, word, WORKSPACE), Ok(end));
    }
    assert_eq!(run(&pairs, 3, 8, WORKSPACE), Err(13));
}

#[test]
fn pairs_agrees_with_its_circuit() {
    for n in 1..=8 {
        compare_all_words(&bytes(PAIRS), n);
    }
}

#[test]
fn pairs_lists_as_printed() {
    // The first line is document 02's: "PAIRS at n = 3 begins `3 3 15`".
    let printed = "3 3 15\n1 X 4\n2 X 5 -1 -2 +4\n3 X 6 +1 +2 +4\n4 X 5 +6\n5 X 3 +5\n6 X 5 +6\n\
                   7 X 6 +1 +2 +4\n8 X 5 -1 -2 +4\n9 X 4\n";
    assert_eq!(listed(&bytes(PAIRS), 3), printed);
}

#[test]
fn pairs_has_its_bytes_in_the_room() {
    let written = bytes(
        "01 03 03 09 00 00 00  00 04  03 05 01 04 02 01 02  01 06 03 01 02 04  01 05 01 06 \
         01 03 01 05  01 05 01 06  01 06 03 01 02 04  03 05 01 04 02 01 02  00 04",
    );
    let pairs = bytes(PAIRS);
    assert_eq!(compile(&pairs, 3, ROOM, WORKSPACE), Ok(written.clone()));
    assert_eq!(compile(&pairs, 3, written.len(), WORKSPACE), Ok(written));
}

#[test]
fn pairs_keeps_its_bound() {
    let pairs = read_table(&bytes(PAIRS)).unwrap();
    // s = 4, c = 3, p = 1, r = 1.
    assert_eq!(gate_bound(&pairs, 3), 4 * 10 * (1 + 9));
}

#[test]
fn the_bound_counts_classes_on_one_line() {
    let mutual = [call(2, &[1]), call(1, &[1]), not(1), call(3, &[])];
    let line = |main| read_table(&table(main, &mutual)).unwrap();
    // Procedures 1 and 2 are one class; 4 calls 3; a line from main has one
    // class by way of 1 and two by way of 4.
    assert_eq!(gate_bound(&line(not(1)), 1), 5 * 6);
    assert_eq!(gate_bound(&line(call(1, &[])), 1), 5 * 6 * (1 + 4 * 4));
    assert_eq!(
        gate_bound(&line(call(4, &[])), 1),
        5 * 6 * (1 + 4 * 2 * 4 * 4)
    );
}

#[test]
fn the_bound_stops_at_the_largest_number() {
    let mut bodies: Vec<Statement> = (2..=16).map(|next| call(next, &[])).collect();
    bodies[0] = (0..6).fold(call(2, &[]), |half, _| sequence(half.clone(), half));
    bodies.push(not(1));
    let program = read_table(&table(call(1, &[]), &bodies)).unwrap();
    assert_eq!(gate_bound(&program, 32), u128::MAX);
}

#[test]
fn self_calls_in_sequence_are_too_wide() {
    for n in [1, 2, 3, 4, 32] {
        assert_eq!(judged(&two_in_sequence(), n), 11);
    }
}

#[test]
fn self_calls_in_the_branches_of_a_qcase_are_accepted() {
    let branches = one_in_each_branch();
    for n in 1..=8 {
        assert_eq!(judged(&branches, n), 0);
        compare_all_words(&branches, n);
    }
    assert_eq!(verdict(&branches, 32, WORKSPACE), 0);
}

#[test]
fn a_self_call_without_removal_is_refused() {
    assert_eq!(judged(&without_removal(), 3), 10);
    assert_eq!(judged(&procedure(call(1, &[1])), 3), 0);
}

#[test]
fn mutual_calls_are_recursive() {
    let main = || call(1, &[]);
    let open = [call(2, &[1]), call(1, &[])];
    assert_eq!(judged(&table(main(), &open), 3), 10);
    let removed = [call(2, &[1]), call(1, &[1])];
    assert_eq!(judged(&table(main(), &removed), 3), 0);
    let wide = [sequence(call(2, &[1]), call(1, &[1])), call(1, &[1])];
    assert_eq!(judged(&table(main(), &wide), 3), 11);
}

#[test]
fn calls_of_main_are_not_recursive() {
    let body = case(1, call(1, &[1]), Statement::Skip);
    let main = sequence(call(1, &[]), sequence(call(1, &[]), call(1, &[1])));
    assert_eq!(judged(&table(main, &[body]), 3), 0);
}

#[test]
fn ten_and_eleven_count_in_bodies_never_reached_and_twelve_does_not() {
    let skip = || Statement::Skip;
    assert_eq!(judged(&table(skip(), &[call(1, &[])]), 3), 10);
    let twice = sequence(call(1, &[1]), call(1, &[1]));
    assert_eq!(judged(&table(skip(), &[twice]), 3), 11);
    assert_eq!(judged(&table(skip(), &[not(0)]), 3), 0);
    assert_eq!(judged(&table(call(1, &[0]), &[not(0)]), 3), 0);
    assert_eq!(judged(&table(call(1, &[]), &[not(0)]), 3), 12);
}

#[test]
fn n_is_1_to_32() {
    for n in [0, 33, 256 + 3, u32::MAX] {
        assert_eq!(judged(&bytes(PAIRS), n), 9);
        assert_eq!(judged(&[], n), 9);
        assert_eq!(run(&bytes(PAIRS), n, 0, 0), Err(9));
        assert_eq!(compile(&bytes(PAIRS), n, 0, 0), Err(9));
    }
    assert_eq!(verdict(&bytes(PAIRS), 32, WORKSPACE), 0);
    assert_eq!(listing(&[]), b"9\n");
    assert_eq!(listing(&[33, 1, 0, 0, 0]), b"9\n");
}

#[test]
fn the_shortest_circuit_needs_a_room_of_seven() {
    let skip = bytes("01 00 00 00");
    let header = bytes("01 05 00 00 00 00 00");
    assert_eq!(compile(&skip, 5, 7, WORKSPACE), Ok(header));
    assert_eq!(compile(&skip, 5, 6, WORKSPACE), Err(23));
    assert_eq!(compile(&skip, 5, 0, WORKSPACE), Err(23));
    assert_eq!(listed(&skip, 5), "5 0 5\n");
}

#[test]
fn not_is_accepted_at_n_only_within_the_list() {
    let at = |position| table(Statement::Not(vec![], position), &[]);
    for n in 1..=8 {
        assert_eq!(judged(&at(SizePlus(0)), n), 0);
        assert_eq!(judged(&at(Constant(n as i16)), n), 0);
        for position in [SizePlus(1), Constant(n as i16 + 1), Constant(0)] {
            assert_eq!(judged(&at(position), n), 12);
        }
        for position in [Constant(-1), Constant(i16::MIN), SizePlus(i16::MAX)] {
            assert_eq!(judged(&at(position), n), 12);
        }
    }
}

#[test]
fn a_closed_qubit_is_found_through_a_call() {
    assert_eq!(judged(&closed_through_a_call(), 1), 0);
    for n in 2..=6 {
        assert_eq!(judged(&closed_through_a_call(), n), 12);
    }
}

#[test]
fn a_fault_counts_in_both_branches_of_a_qcase_and_in_the_chosen_one_of_an_if() {
    let skip = || Statement::Skip;
    assert_eq!(judged(&table(case(1, not(1), skip()), &[]), 2), 12);
    assert_eq!(judged(&table(case(1, skip(), not(1)), &[]), 2), 12);
    assert_eq!(judged(&table(case(1, not(2), not(2)), &[]), 2), 0);
    assert_eq!(
        judged(&table(case(1, case(1, skip(), skip()), skip()), &[]), 2),
        12
    );
    let asks = |yes, no| table(choose(longer_than(2), yes, no), &[]);
    assert_eq!(judged(&asks(not(0), skip()), 2), 0);
    assert_eq!(judged(&asks(not(0), skip()), 3), 12);
    assert_eq!(judged(&asks(skip(), not(0)), 2), 12);
    assert_eq!(judged(&asks(skip(), not(0)), 3), 0);
}

#[test]
fn a_closed_qubit_may_be_passed_on_and_removed() {
    let touches_second = not(2);
    let main = case(
        1,
        call(1, &[]),
        Statement::Not(vec![Constant(1)], Constant(1)),
    );
    assert_eq!(judged(&table(main, &[touches_second]), 2), 0);
}

#[test]
fn removals_go_left_to_right_with_the_size_of_the_whole_list() {
    let flips = |removed: &[Number], position| {
        let main = Statement::Not(removed.to_vec(), position);
        run(&table(main, &[]), 4, 0, WORKSPACE)
    };
    assert_eq!(flips(&[Constant(1), Constant(1)], Constant(1)), Ok(0b0100));
    assert_eq!(flips(&[Constant(1), Constant(2)], Constant(1)), Ok(0b0010));
    assert_eq!(flips(&[Constant(1)], SizePlus(-1)), Ok(0b1000));
    assert_eq!(flips(&[Constant(1)], SizePlus(0)), Err(12));
    assert_eq!(
        flips(&[SizePlus(0), SizePlus(-1)], SizePlus(-2)),
        Ok(0b0010)
    );
    assert_eq!(flips(&[SizePlus(0), SizePlus(0)], Constant(1)), Err(12));
}

#[test]
fn later_list_2_4_against_first_list_3_4_gives_one_swap() {
    let body = choose(
        longer_than(2),
        case(1, call(1, &[1, 1]), call(1, &[1, 2])),
        case(2, not(1), Statement::Skip),
    );
    let swapping = procedure(body);
    let printed = "4 3 18\n1 X 5\n2 X 6 -1 +5\n3 X 7 +1 +5\n4 X 6 +7\n5 S 2 3 +7\n6 X 3 -4 +6\n\
                   7 S 2 3 +7\n8 X 6 +7\n9 X 7 +1 +5\n10 X 6 -1 +5\n11 X 5\n";
    assert_eq!(listed(&swapping, 4), printed);
    compare_all_words(&swapping, 4);
}

#[test]
fn swaps_follow_the_qubits() {
    // First list [3,4], later list [2,3]: once 2 and 3 are exchanged, qubit 3
    // stands on wire 2.
    let body = choose(
        longer_than(2),
        case(1, call(1, &[1, 1]), call(1, &[1, 3])),
        case(2, not(1), Statement::Skip),
    );
    let swapping = procedure(body);
    let gates = emitted(&swapping, 4).gates;
    let swaps: Vec<_> = gates.iter().filter(|gate| gate.is_swap()).collect();
    let wires: Vec<_> = swaps.iter().map(|gate| gate.action).collect();
    let (first, then) = (
        Action::Swap { lower: 2, upper: 3 },
        Action::Swap { lower: 2, upper: 4 },
    );
    assert_eq!(wires, [first, then, then, first]);
    let entry = [Control {
        wire: 7,
        asks: true,
    }];
    assert!(swaps.iter().all(|gate| gate.controls == entry));
    compare_all_words(&swapping, 4);
}

#[test]
fn left_and_right_parts_stand_as_an_onion() {
    // Left: NOT 1, then the call; right: what follows the call.
    let body = choose(
        longer_than(1),
        sequence(not(1), sequence(call(1, &[1]), not(2))),
        not(1),
    );
    let printed = "2 2 11\n1 X 3\n2 X 1 +3\n3 X 4 +3\n4 X 2 +4\n5 X 4 +3\n6 X 2 +3\n7 X 3\n";
    assert_eq!(listed(&procedure(body), 2), printed);
}

#[test]
fn a_branch_of_width_0_goes_left_in_its_turn() {
    let body = choose(
        longer_than(1),
        sequence(case(1, not(2), call(1, &[1])), not(2)),
        not(1),
    );
    let printed = "2 2 11\n1 X 3\n2 X 2 -1 +3\n3 X 4 +1 +3\n4 X 2 +4\n5 X 4 +1 +3\n6 X 2 +3\n\
                   7 X 3\n";
    assert_eq!(listed(&procedure(body), 2), printed);
}

#[test]
fn an_if_is_the_width_1_part_whatever_it_chooses() {
    // At size 1 the if chooses NOT, yet what follows it still goes right, and
    // so behind nothing else: gates 4 and 5 are the two parts of one body.
    let body = sequence(choose(longer_than(1), call(1, &[1]), not(1)), not(1));
    let printed = "2 2 11\n1 X 3\n2 X 4 +3\n3 X 2 +4\n4 X 2 +4\n5 X 4 +3\n6 X 1 +3\n7 X 3\n";
    assert_eq!(listed(&procedure(body), 2), printed);
}

#[test]
fn nested_chains_take_wires_above_those_in_use_and_give_them_back() {
    let body = choose(
        longer_than(1),
        sequence(call(2, &[]), sequence(call(1, &[1]), call(2, &[]))),
        Statement::Skip,
    );
    let nested = table(call(1, &[]), &[body, not(1)]);
    let printed = "2 3 15\n1 X 3\n2 X 4 +3\n3 X 1 +4\n4 X 4 +3\n5 X 4 +3\n6 X 4 +3\n7 X 5 +3\n\
                   8 X 1 +5\n9 X 5 +3\n10 X 3\n";
    assert_eq!(listed(&nested, 2), printed);
    let tally = emitted(&nested, 2).tally;
    assert_eq!((tally.nested_left, tally.nested_right), (1, 1));
}

#[test]
fn bodies_go_by_length_and_then_by_procedure() {
    // From length 4: procedure 2 with 2 qubits, then procedure 1 with 3, and
    // from there both with 2 again: the longer body comes before the shorter,
    // and of the two shorter ones that of procedure 1, though it was called last.
    let four = case(1, call(2, &[1, 1]), call(1, &[1]));
    let three = case(1, call(1, &[1]), call(2, &[1]));
    let first = choose(longer_than(3), four, choose(longer_than(2), three, not(1)));
    let second = choose(longer_than(4), call(1, &[1]), not(2));
    let mixed = table(call(1, &[]), &[first, second]);
    let printed = "4 5 23\n1 X 5\n2 X 6 -1 +5\n3 X 7 +1 +5\n4 X 8 -2 +7\n5 X 9 +2 +7\n6 X 3 +8\n\
                   7 X 6 +9\n8 X 4 +6\n9 X 6 +9\n10 X 9 +2 +7\n11 X 8 -2 +7\n12 X 7 +1 +5\n\
                   13 X 6 -1 +5\n14 X 5\n";
    assert_eq!(listed(&mixed, 4), printed);
    compare_all_words(&mixed, 4);
}

#[test]
fn equal_lengths_are_emitted_as_worked_out_by_hand() {
    // Procedure 3 is called first and takes ancilla 4, procedure 2 ancilla 5.
    let printed = "2 3 13\n1 X 3\n2 X 4 -1 +3\n3 X 5 +1 +3\n4 X 2 +5\n5 X 2 +4\n\
                   6 X 5 +1 +3\n7 X 4 -1 +3\n8 X 3\n";
    let three_first = equal_lengths(3, 2);
    assert_eq!(listed(&three_first, 2), printed);
    let written = bytes(
        "01 02 03 08 00 00 00  00 03  03 04 01 03 01 01  01 05 02 01 03  01 02 01 05 \
         01 02 01 04  01 05 02 01 03  03 04 01 03 01 01  00 03",
    );
    assert_eq!(compile(&three_first, 2, ROOM, WORKSPACE), Ok(written));
    assert_eq!(emitted(&three_first, 2).tally.reordered, 1);
    // The other way round 2 is called first, and its body stays before that of 3.
    let printed = "2 3 13\n1 X 3\n2 X 4 -1 +3\n3 X 5 +1 +3\n4 X 2 +4\n5 X 2 +5\n\
                   6 X 5 +1 +3\n7 X 4 -1 +3\n8 X 3\n";
    let two_first = equal_lengths(2, 3);
    assert_eq!(listed(&two_first, 2), printed);
    assert_eq!(emitted(&two_first, 2).tally.reordered, 0);
    for table in [three_first, two_first] {
        assert_eq!(emitted(&table, 2).tally.most_of_one_length, 2);
        for n in 1..=8 {
            compare_all_words(&table, n);
        }
    }
}

#[test]
fn a_recursive_call_with_nothing_left_emits_nothing() {
    let body = sequence(call(1, &[0]), not(1));
    assert_eq!(
        listed(&procedure(body), 2),
        "2 1 6\n1 X 3\n2 X 1 +3\n3 X 3\n"
    );
    let main = sequence(call(1, &[1, 1]), not(1));
    assert_eq!(listed(&table(main, &[not(1)]), 2), "2 0 3\n1 X 1\n");
}

#[test]
fn each_refusal_of_the_reader_has_its_table() {
    for (number, hexadecimal) in [
        (1, ""),
        (1, "01"),
        (1, "01 00"),
        (1, "01 00 00"),
        (1, "01 00 02 01"),
        (1, "01 00 02 01 00 01"),
        (1, "01 00 00 02 00 00"),
        (1, "01 01 00 00"),
        (1, "01 01 08 05"),
        (2, "00 00 00 00"),
        (2, "02 00 00 00"),
        (3, "01 11 00 00"),
        (4, "01 00 00 0C"),
        (4, "01 00 06 06 00 00 00 00 00 00"),
        (4, "01 00 00 03 00 00 00 00 00 00"),
        (5, "01 00 01 00"),
        (5, "01 00 10 00"),
        (5, "01 00 80 00"),
        (5, "01 00 00 01"),
        (5, "01 00 01 01"),
        (5, "01 00 06 04 00 01 00"),
        (5, "01 01 0A 05"),
        (5, "01 00 00 03 07 06"),
        (6, "01 00 03 01 00"),
        (6, "01 00 03 01 09"),
        (6, "01 00 03 01 01 03"),
        (6, "01 00 02 01 03 01 00"),
        (6, "01 00 08 05 01"),
        (6, "01 01 08 05 00 00 00"),
        (6, "01 01 08 05 02 00 00"),
        (8, "01 00 00 00 00"),
        (8, "01 01 00 00 00 00 00 00"),
        (0, "01 00 03 01 01 00 02 00 01 FF FF"),
    ] {
        assert_eq!(judged(&bytes(hexadecimal), 3), number, "{hexadecimal}");
    }
}

#[test]
fn sixteen_procedures_are_read() {
    let bodies = vec![Statement::Skip; 16];
    assert_eq!(judged(&table(call(16, &[]), &bodies), 3), 0);
    assert_eq!(judged(&table(call(17, &[]), &bodies), 3), 6);
}

#[test]
fn trees_are_at_most_32_records_deep() {
    let deep = |depth| leaning_right(depth, Statement::Skip);
    assert_eq!(judged(&table(deep(32), &[deep(32)]), 3), 0);
    assert_eq!(judged(&table(deep(33), &[]), 3), 7);
    assert_eq!(judged(&table(deep(1), &[deep(33)]), 3), 7);
    let asks = |depth: usize| {
        let condition = negations(depth - 1);
        table(choose(condition, Statement::Skip, Statement::Skip), &[])
    };
    assert_eq!(judged(&asks(32), 3), 0);
    assert_eq!(judged(&asks(33), 3), 7);
}

#[test]
fn there_are_at_most_255_records_in_a_table() {
    assert_eq!(judged(&table(full(8), &[]), 3), 0);
    assert_eq!(judged(&table(full(8), &[Statement::Skip]), 3), 7);
    assert_eq!(judged(&table(full(7), &[full(7), Statement::Skip]), 3), 0);
    let asks = choose(longer_than(1), Statement::Skip, Statement::Skip);
    let with_condition = |bodies: &[Statement]| {
        judged(
            &table(full(7), &[&[full(6), full(5), full(4)], bodies].concat()),
            3,
        )
    };
    // 127 + 63 + 31 + 15 = 236 records, and 4 for each further if.
    assert_eq!(with_condition(&vec![asks.clone(); 4]), 0);
    assert_eq!(with_condition(&vec![asks; 5]), 7);
}

#[test]
fn the_reader_keeps_its_order() {
    let after_deep = |ending: &str| {
        let chain = "00 02 00 00 ".repeat(31);
        judged(&bytes(&format!("01 00 {chain} 00 02 {ending}")), 3)
    };
    let after_many = |ending: &str| {
        let mut many = table(full(8), &[]);
        many[1] = 1;
        many.extend(bytes(ending));
        judged(&many, 3)
    };
    // The sequence that ends the chain is the 32nd record deep.
    for after in [&after_deep as &dyn Fn(&str) -> u32, &after_many] {
        assert_eq!(after("80"), 1, "1 before 4 and 7");
        assert_eq!(after("80 0C"), 4, "4 before 7 and 5");
        assert_eq!(after("80 00"), 7, "7 before 5");
        assert_eq!(after("03 01 00"), 7, "7 before 6");
        assert_eq!(after("02 01"), 7, "7 before 1 in the fields");
    }
    for (number, hexadecimal, order) in [
        (1, "07", "1 before 2"),
        (2, "07 11", "2 before 3"),
        (3, "01 11", "3 before the records' 1"),
        (4, "01 00 80 0C", "4 before 5"),
        (5, "01 00 90 01", "5 before 1 in the fields"),
        (5, "01 00 81 01 00", "5 before 6"),
        (1, "01 00 03 01", "1 for the count before 6 for it"),
        (6, "01 00 03 01 00", "6 for the count before 1 for the rest"),
        (
            6,
            "01 00 02 01 03",
            "6 for the base before 1 for the constant",
        ),
        (
            6,
            "01 01 09 05 01 03 00 00 09",
            "6 for a base before 6 later",
        ),
        (1, "01 01 09 05 01 00 00 00", "1 for the procedure before 6"),
        (6, "01 01 08 05 09", "6 before 1 of the next body"),
        (
            6,
            "01 00 00 02 08 05 01 80 0C",
            "6 before 4 of the next record",
        ),
        (1, "01 01 00 00", "1 before 8"),
        (8, "01 01 00 00 08 05 01 00", "8 before 10"),
    ] {
        assert_eq!(judged(&bytes(hexadecimal), 3), number, "{order}");
    }
}

#[test]
fn the_judgements_keep_their_order() {
    let wide = || sequence(call(1, &[1]), call(1, &[1]));
    let unremoved = || call(2, &[]);
    assert_eq!(judged(&table(not(0), &[wide(), unremoved()]), 3), 10);
    assert_eq!(judged(&table(not(0), &[wide()]), 3), 11);
    assert_eq!(judged(&table(not(0), &[]), 3), 12);
    let mut left_over = table(not(0), &[wide(), unremoved()]);
    left_over.push(0);
    assert_eq!(judged(&left_over, 3), 8);
}

#[test]
fn the_operations_keep_their_order() {
    let (fault, fine) = (table(not(0), &[]), table(not(1), &[]));
    let short = WORKSPACE - 1;
    assert_eq!(verdict(&fault, 3, 0), 12);
    assert_eq!(verdict(&fine, 3, short), 21);
    assert_eq!(plain_verdict(&fine, 3, short), 21);
    assert_eq!(run(&fault, 3, 8, 0), Err(12));
    assert_eq!(run(&fine, 3, 8, 0), Err(13));
    assert_eq!(run(&fine, 3, 7, short), Err(21));
    assert_eq!(run(&fine, 3, 7, WORKSPACE), Ok(6));
    assert_eq!(compile(&fault, 3, 0, 0), Err(12));
    assert_eq!(compile(&fine, 3, 0, short), Err(21));
    assert_eq!(compile(&fine, 3, 0, WORKSPACE), Err(23));
}

#[test]
fn every_bit_at_n_or_above_gives_13() {
    let fine = table(not(1), &[]);
    let circuit = compile(&fine, 5, ROOM, WORKSPACE).unwrap();
    for bit in 0..64 {
        let refused = if bit < 5 { None } else { Some(13) };
        assert_eq!(run(&fine, 5, 1 << bit, WORKSPACE).err(), refused);
        assert_eq!(circuit_run(&circuit, 1 << bit).err(), refused);
    }
    assert_eq!(
        run(&fine, 32, u64::from(u32::MAX), WORKSPACE),
        Ok(0xFFFF_FFFE)
    );
    assert_eq!(run(&fine, 32, 1 << 32, WORKSPACE), Err(13));
}

/// A procedure that splits into 64 calls, each with six qubits fewer: every
/// six qubits take 64 ancillas.
fn many_ancillas() -> Vec<u8> {
    let calls = (1..=6).rev().fold(call(1, &[1; 6]), |inner, position| {
        case(position, inner.clone(), inner)
    });
    procedure(choose(longer_than(6), calls, not(1)))
}

#[test]
fn a_wire_above_255_is_refused() {
    let many = many_ancillas();
    // 1 + 64 ancillas for each further step of six: 193 wires of 24, 257 of 30.
    let fits = compile(&many, 24, ROOM, WORKSPACE).unwrap();
    assert_eq!(read_circuit(&fits).unwrap().ancillas, 1 + 3 * 64);
    assert_eq!(compile(&many, 25, ROOM, WORKSPACE), Err(22));
    assert_eq!(compile(&many, 32, ROOM, WORKSPACE), Err(22));
    assert_eq!(verdict(&many, 32, WORKSPACE), 0);
    assert_eq!(listed(&many, 32), "22\n");
}

#[test]
fn the_first_step_that_does_not_fit_decides_between_22_and_23() {
    let many = many_ancillas();
    // Each left part has 63 gates of 11 bytes and one of 10, each further body
    // 63 entry gates of 4 bytes before it. The fourth left part has placed 30
    // gates when it would take ancilla 224, which would be wire 256.
    let (left_part, entry_gates) = (63 * 11 + 10, 63 * 4);
    let before = 7 + 2 + 3 * (left_part + entry_gates) + 30 * 11;
    for room in (0..before).step_by(100).chain([before - 1]) {
        assert_eq!(compile(&many, 32, room, WORKSPACE), Err(23));
    }
    for room in [before, before + 1, before + 11, ROOM] {
        assert_eq!(compile(&many, 32, room, WORKSPACE), Err(22));
    }
}

#[test]
fn a_circuit_fits_exactly_or_is_refused() {
    let pairs = bytes(PAIRS);
    let whole = compile(&pairs, 7, ROOM, WORKSPACE).unwrap();
    for room in 0..whole.len() {
        assert_eq!(compile(&pairs, 7, room, WORKSPACE), Err(23));
    }
    for room in [whole.len(), whole.len() + 1, ROOM + 1, usize::MAX] {
        assert_eq!(compile(&pairs, 7, room, WORKSPACE), Ok(whole.clone()));
    }
}

/// Procedures 1 to 4, each calling the next 16 times: a circuit of 65,536
/// NOT gates and more, past any room.
fn past_every_room() -> Vec<u8> {
    let many = |next| (0..4).fold(call(next, &[]), |half, _| sequence(half.clone(), half));
    table(many(1), &[many(2), many(3), many(4), not(1)])
}

#[test]
fn room_past_65536_bytes_is_not_used() {
    let past = past_every_room();
    assert_eq!(judged(&past, 1), 0);
    for room in [ROOM, ROOM + 1, usize::MAX] {
        assert_eq!(compile(&past, 1, room, WORKSPACE), Err(23));
    }
    assert_eq!(listed(&past, 1), "23\n");
}

#[test]
fn listing_answers_input_longer_than_any_table() {
    let mut long = bytes(PAIRS);
    long.resize(1 << 20, 0);
    assert_eq!(listed(&long, 3), "8\n");
    assert_eq!(listed(&[], 3), "1\n");
}

#[test]
fn circuits_not_well_formed_are_refused() {
    for hexadecimal in [
        "",
        "01 03 00 00 00 00",
        "00 03 00 00 00 00 00",
        "02 03 00 00 00 00 00",
        "01 00 00 00 00 00 00",
        "01 21 00 00 00 00 00",
        "01 20 E0 00 00 00 00",
        "01 03 00 00 00 00 00 00",
        "01 03 00 01 00 00 00",
        "01 03 00 FF FF FF FF 00 01",
        "01 03 00 00 00 00 00 00 01",
        "01 03 00 01 00 00 00 08 01",
        "01 03 00 01 00 00 00 00 00",
        "01 03 00 01 00 00 00 00 04",
        "01 03 00 01 00 00 00 01 01 00",
        "01 03 00 01 00 00 00 01 01 01 01",
        "01 03 00 01 00 00 00 01 01 02 03 02",
        "01 03 00 01 00 00 00 01 01 02 02 02",
        "01 03 00 01 00 00 00 01 01 02 02",
        "01 03 00 01 00 00 00 03 01 01 02 01 02",
        "01 03 00 01 00 00 00 02 01 00",
        "01 03 00 01 00 00 00 04 01 01",
        "01 03 00 01 00 00 00 04 02 01",
        "01 03 00 01 00 00 00 04 02",
        "01 03 00 01 00 00 00 05 01 01 02 02",
        "01 03 00 01 00 00 00 01 01 01 04",
    ] {
        let circuit = bytes(hexadecimal);
        assert_eq!(read_circuit(&circuit).err(), Some(14), "{hexadecimal}");
        assert_eq!(
            circuit_run(&circuit, 1 << 40).err(),
            Some(14),
            "14 before 13"
        );
    }
}

#[test]
fn circuits_well_formed_are_read() {
    for (hexadecimal, word, end) in [
        ("01 03 00 00 00 00 00", 5, 5),
        ("01 20 DF 00 00 00 00", 5, 5),
        ("01 03 00 01 00 00 00 00 01", 0, 1),
        ("01 04 00 01 00 00 00 07 01 01 02 01 03 04", 0b0011, 0b1010),
        ("01 03 00 01 00 00 00 03 01 01 03 01 02", 0b100, 0b101),
        ("01 03 00 01 00 00 00 03 01 01 03 01 02", 0b110, 0b110),
    ] {
        let block = circuit_run(&bytes(hexadecimal), word).unwrap();
        assert_eq!(u64::from(block.wires[0]), end, "{hexadecimal}");
    }
    let all = [bytes("01 20 DF 01 00 00 00 01 FF FE"), (1..=254).collect()].concat();
    let block = circuit_run(&all, 0).unwrap();
    assert_eq!((block.n, block.ancillas, block.wires), (32, 223, [0; 32]));
    let last = bytes("01 20 DF 01 00 00 00 00 FF");
    let block = circuit_run(&last, 0).unwrap();
    assert_eq!((block.wires[31], block.holds(255)), (0x40, true));
}

#[test]
fn a_circuit_of_65536_bytes_is_the_longest() {
    // NOT gates of two bytes and one gate of three or four bytes.
    let with_last = |last: &str| {
        let mut circuit = vec![1, 2, 0];
        circuit.extend(32_764u32.to_le_bytes());
        circuit.extend([0, 1].repeat(32_763));
        circuit.extend(bytes(last));
        circuit
    };
    let (longest, longer) = (with_last("04 01 02"), with_last("01 01 01 02"));
    assert_eq!((longest.len(), longer.len()), (65_536, 65_537));
    assert_eq!(read_circuit(&longest).unwrap().gates.len(), 32_764);
    assert_eq!(read_circuit(&longer).err(), Some(14));
}
