//! Document 02, S-1: pages written by hand, bands of nineteen gates, bytes that
//! are no circuit and bytes that are no page, and random circuits whose gates
//! are read off their pages again.

mod circuits;
mod met;

use circuits::check_random;
use foq_generator::circuits::{circuit, circuit_of};
use foq_generator::damage::{damaged, single_changes, truncations};
use foq_generator::{Random, PAIRS};
use foq_reference::{
    circuit_bytes, compile, gates_on, page, read_circuit, Action, Circuit, Control, Gate,
    LONGEST_CIRCUIT, SHORTEST_WORKSPACE,
};
use met::{add, assert_met, Counts};
use std::io::Write;
use std::process::{Command, Stdio};

/// "14 alone where it is not well formed".
const NOT_WELL_FORMED: &str = "14\n";

/// The bytes of the gate that a listing prints as `X 1`.
const X_1: &[u8] = &[0, 1];
/// The bytes of `X 2 +1`.
const X_2_ON_1: &[u8] = &[1, 2, 1, 1];
/// The bytes of `S 1 2`.
const S_1_2: &[u8] = &[4, 1, 2];

/// The page of PAIRS at n = 3, from its listing in document 01.
const PAIRS_AT_3: &str = concat!(
    "   1----o---+---------------+---o-------\n",
    "   2----o---+---------------+---o-------\n",
    "   3----|---|-------X-------|---|-------\n",
    "   4X---+---+-------|-------+---+---X---\n",
    "   5----X---|---X---+---X---|---X-------\n",
    "   6--------X---+-------+---X-----------\n",
);

fn drawn(input: &[u8]) -> String {
    String::from_utf8(page(input)).unwrap()
}

/// Checks that the page is as written, and that its gates are those of the
/// circuit.
fn check(input: &[u8], written: &str) {
    assert_eq!(drawn(input), written);
    let gates = read_circuit(input).unwrap().gates;
    assert_eq!(gates_on(written.as_bytes()), Some(gates));
}

fn pairs_at(n: u32) -> Vec<u8> {
    compile(PAIRS, n, LONGEST_CIRCUIT, SHORTEST_WORKSPACE).unwrap()
}

#[test]
fn pairs_at_3_is_drawn_as_its_listing_says() {
    let gates: [&[u8]; 9] = [
        &[0, 4],
        &[3, 5, 1, 4, 2, 1, 2],
        &[1, 6, 3, 1, 2, 4],
        &[1, 5, 1, 6],
        &[1, 3, 1, 5],
        &[1, 5, 1, 6],
        &[1, 6, 3, 1, 2, 4],
        &[3, 5, 1, 4, 2, 1, 2],
        &[0, 4],
    ];
    check(&circuit_of(3, 3, &gates), PAIRS_AT_3);
    assert_eq!(pairs_at(3), circuit_of(3, 3, &gates));
}

#[test]
fn pairs_at_1_and_2_are_drawn_as_they_are_emitted() {
    // n = 1: the chain's ancilla, the NOT under it, the ancilla again.
    check(&pairs_at(1), "   1----X-------\n   2X---+---X---\n");
    // n = 2: PAIRS does nothing there but to flip its ancilla twice.
    check(&pairs_at(2), "   1--------\n   2--------\n   3X---X---\n");
}

#[test]
fn a_circuit_without_gates_is_one_band_of_wire_numbers() {
    let none: [&[u8]; 0] = [];
    check(&circuit_of(1, 0, &none), "   1\n");
    check(&circuit_of(2, 1, &none), "   1\n   2\n   3\n");
    let page = drawn(&circuit_of(32, 223, &none));
    assert_eq!(page.len(), 255 * 5);
    assert!(page.starts_with("   1\n   2\n"));
    assert!(page.contains("   9\n  10\n"));
    assert!(page.contains("  99\n 100\n"));
    assert!(page.ends_with(" 254\n 255\n"));
    assert_eq!(gates_on(page.as_bytes()), Some(vec![]));
}

#[test]
fn bars_stand_between_the_outermost_wires_only() {
    let gates: [&[u8]; 8] = [
        // X 3 under nothing, then under one neighbour.
        &[0, 3],
        &[1, 3, 1, 2],
        &[2, 3, 1, 4],
        // Controls on both sides of the target, on one side, and far away.
        &[3, 3, 1, 5, 1, 1],
        &[1, 5, 2, 1, 3],
        &[2, 1, 1, 5],
        // Swaps of neighbours and of wires further apart.
        &[4, 2, 3],
        &[4, 1, 4],
    ];
    let written = concat!(
        "   1------------o---+---X-------S---\n",
        "   2----+-------|---|---|---S---|---\n",
        "   3X---X---X---X---+---|---S---|---\n",
        "   4--------o---|---|---|-------S---\n",
        "   5------------+---X---o-----------\n",
    );
    check(&circuit_of(5, 0, &gates), written);
}

#[test]
fn a_swap_far_apart_has_controls_outside_and_between() {
    // S 3 9 +1 -5 +11, then the same swap with all its controls between.
    let gates: [&[u8]; 2] = [&[7, 3, 2, 1, 11, 1, 5, 9], &[7, 3, 1, 8, 2, 4, 6, 9]];
    let written = concat!(
        "   1+-------\n",
        "   2|-------\n",
        "   3S---S---\n",
        "   4|---o---\n",
        "   5o---|---\n",
        "   6|---o---\n",
        "   7|---|---\n",
        "   8|---+---\n",
        "   9S---S---\n",
        "  10|-------\n",
        "  11+-------\n",
        "  12--------\n",
    );
    check(&circuit_of(10, 2, &gates), written);
    let control = |wire, asks| Control { wire, asks };
    let first = Gate {
        action: Action::Swap { lower: 3, upper: 9 },
        controls: vec![control(1, true), control(5, false), control(11, true)],
    };
    assert_eq!(gates_on(written.as_bytes()).unwrap()[0], first);
}

#[test]
fn nineteen_gates_fill_a_line_and_the_twentieth_opens_a_band() {
    let full = concat!(
        "   1+---+---+---+---+---+---+---+---+---+---+---+---+---+---+---+---+---+---+---\n",
        "   2X---X---X---X---X---X---X---X---X---X---X---X---X---X---X---X---X---X---X---\n",
    );
    assert_eq!(full.lines().map(str::len).collect::<Vec<_>>(), [80, 80]);
    let mut gates = vec![X_2_ON_1; 19];
    check(&circuit_of(2, 0, &gates), full);
    gates.push(S_1_2);
    let next = "   1S---\n   2S---\n";
    check(&circuit_of(2, 0, &gates), &format!("{full}{next}"));
    gates.splice(19.., vec![X_2_ON_1; 19]);
    check(&circuit_of(2, 0, &gates), &format!("{full}{full}"));
    gates.push(X_1);
    let next = "   1X---\n   2----\n";
    check(&circuit_of(2, 0, &gates), &format!("{full}{full}{next}"));
}

#[test]
fn no_band_is_empty_and_the_last_is_as_long_as_its_gates() {
    for (gates, lines, last) in [
        (0, 3, 4),
        (1, 3, 8),
        (18, 3, 76),
        (19, 3, 80),
        (20, 6, 8),
        (37, 6, 76),
        (38, 6, 80),
        (39, 9, 8),
        (57, 9, 80),
    ] {
        let page = drawn(&circuit_of(2, 1, &vec![X_1; gates]));
        assert!(page.ends_with('\n'));
        let lengths: Vec<usize> = page.lines().map(str::len).collect();
        let mut expected = vec![80; lines];
        expected[lines - 3..].fill(last);
        assert_eq!(lengths, expected, "{gates} gates");
        assert_eq!(gates_on(page.as_bytes()).unwrap().len(), gates);
    }
}

#[test]
fn a_page_can_have_255_wires() {
    // X 255 +1, S 1 255, X 128, X 1 -255, and S 2 254 +100.
    let gates: [&[u8]; 5] = [
        &[1, 255, 1, 1],
        &[4, 1, 255],
        &[0, 128],
        &[2, 1, 1, 255],
        &[5, 2, 1, 100, 254],
    ];
    let row = |wire: usize| match wire {
        1 => "   1+---S-------X-------\n".to_owned(),
        2 => "   2|---|-------|---S---\n".to_owned(),
        100 => " 100|---|-------|---+---\n".to_owned(),
        128 => " 128|---|---X---|---|---\n".to_owned(),
        254 => " 254|---|-------|---S---\n".to_owned(),
        255 => " 255X---S-------o-------\n".to_owned(),
        3..10 => format!("   {wire}|---|-------|---|---\n"),
        10..100 => format!("  {wire}|---|-------|---|---\n"),
        _ => format!(" {wire}|---|-------|---|---\n"),
    };
    let written: String = (1..=255).map(row).collect();
    check(&circuit_of(32, 223, &gates), &written);
    check(&circuit_of(1, 254, &gates), &written);
    assert_eq!(drawn(&circuit_of(32, 224, &gates)), NOT_WELL_FORMED);
}

#[test]
fn bytes_that_are_no_circuit_print_14_alone() {
    let pairs = pairs_at(3);
    for truncated in truncations(&pairs) {
        assert_eq!(drawn(&truncated), NOT_WELL_FORMED);
    }
    assert_eq!(drawn(&[&pairs, [0].as_slice()].concat()), NOT_WELL_FORMED);
    let spoilt: [&[u8]; 12] = [
        // Edition 2; n = 0 and 33; a count one too high and one too low.
        &[2, 1, 0, 0, 0, 0, 0],
        &[1, 0, 1, 0, 0, 0, 0],
        &[1, 33, 0, 0, 0, 0, 0],
        &[1, 1, 0, 2, 0, 0, 0, 0, 1],
        &[1, 1, 0, 0, 0, 0, 0, 0, 1],
        // Map bit 3; wire 0; a wire past the last; no control in a count.
        &[1, 1, 0, 1, 0, 0, 0, 8, 1],
        &[1, 1, 0, 1, 0, 0, 0, 0, 0],
        &[1, 1, 0, 1, 0, 0, 0, 0, 2],
        &[1, 1, 0, 1, 0, 0, 0, 1, 1, 0],
        // Wires descending; a wire twice; a swap's target not the lower wire.
        &[1, 3, 0, 1, 0, 0, 0, 1, 1, 2, 3, 2],
        &[1, 3, 0, 1, 0, 0, 0, 1, 1, 1, 1],
        &[1, 3, 0, 1, 0, 0, 0, 4, 2, 1],
    ];
    for bytes in spoilt {
        assert_eq!(drawn(bytes), NOT_WELL_FORMED, "{bytes:?}");
    }
    let mut counts = [0; 2];
    for changed in single_changes(&pairs) {
        let refused = read_circuit(&changed).is_err();
        assert_eq!(drawn(&changed) == NOT_WELL_FORMED, refused);
        counts[usize::from(refused)] += 1;
    }
    println!("drawn {}, refused {}", counts[0], counts[1]);
    assert!(counts.iter().all(|&count| count > 100));
}

#[test]
fn the_longest_circuit_is_drawn_and_a_byte_more_is_not() {
    // 7 + 3 + 2 × 32,763 = 65,536 bytes; 19 × 1,724 + 8 = 32,764 gates.
    let mut gates = vec![X_1; 32_764];
    gates[0] = S_1_2;
    let longest = circuit_of(2, 0, &gates);
    assert_eq!(longest.len(), 65_536);
    let page = drawn(&longest);
    let lengths: Vec<usize> = page.lines().map(str::len).collect();
    let mut expected = vec![80; 2 * 1_725];
    expected[2 * 1_724..].fill(4 + 4 * 8);
    assert_eq!(lengths, expected);
    let read = read_circuit(&longest).unwrap();
    assert_eq!(gates_on(page.as_bytes()), Some(read.gates));
    // 7 + 2 × 32,765 = 65,537 bytes, but for their number a circuit.
    let longer = circuit_of(2, 0, &vec![X_1; 32_765]);
    assert_eq!(longer.len(), 65_537);
    assert_eq!(drawn(&longer), NOT_WELL_FORMED);
    assert_eq!(drawn(&[&longest, [0].as_slice()].concat()), NOT_WELL_FORMED);
}

#[test]
fn the_program_prints_the_page() {
    let longer = circuit_of(2, 0, &vec![X_1; 32_765]);
    let wide = circuit_of(32, 223, &[X_1; 2_000]);
    for input in [pairs_at(3), Vec::new(), longer, wide] {
        let mut program = Command::new(env!("CARGO_BIN_EXE_reference-page"))
            .stdin(Stdio::piped())
            .stdout(Stdio::piped())
            .spawn()
            .unwrap();
        // It reads all of this before it prints; then its input is closed.
        let mut stdin = program.stdin.take().unwrap();
        stdin.write_all(&input).unwrap();
        drop(stdin);
        let output = program.wait_with_output().unwrap();
        assert!(output.status.success());
        assert!(output.stdout == page(&input));
    }
}

#[test]
fn bytes_that_are_no_page_have_no_gates() {
    let full = "   1X---X---X---X---X---X---X---X---X---X---X---X---X---X---X---X---X---X---X---\n";
    assert_eq!(full.len(), 81);
    assert!(gates_on(full.as_bytes()).is_some());
    let two_bands = format!("{full}   1X---\n");
    assert!(gates_on(two_bands.as_bytes()).is_some());
    let wrong = [
        // No line, an empty line, a refusal, a line that does not end, a line
        // between bands or behind the last one.
        "",
        "\n",
        "14\n",
        "   1X---",
        &format!("{full}\n   1X---\n"),
        &format!("{full}   1X---\n\n"),
        // Wire numbers: none, not right-aligned, filled with zeros, signed,
        // 0, past 255, not from 1 on, not in order, one left out or twice.
        "    X---\n",
        "1   X---\n",
        "0001X---\n",
        "  +1X---\n",
        "   0X---\n",
        " 256X---\n",
        "   2X---\n",
        "   2X---\n   1----\n",
        "   1X---\n   3----\n",
        "   1X---\n   2----\n   2----\n",
        // Columns: cut short, a mark with something else behind it, rows of
        // different lengths.
        "   1X--\n",
        "   1X---X\n",
        "   1X--|\n",
        "   1X   \n",
        "   1X---X---\n   2----\n",
        "   1X---\n   2--------\n",
        // Bands: not all wires, too few gates before the last one, more than
        // nineteen, empty ones.
        &format!("{full}   1X---\n   2----\n"),
        "   1X---\n   1X---\n",
        &full.replace('\n', "X---\n"),
        &format!("{full}   1\n"),
        "   1\n   1\n",
        // Gates: without a target, with two, half a swap, three halves, NOT
        // and swap in one, an unknown mark.
        "   1----\n",
        "   1+---\n   2o---\n",
        "   1X---\n   2X---\n",
        "   1S---\n   2----\n",
        "   1S---\n   2S---\n   3S---\n",
        "   1S---\n   2S---\n   3X---\n",
        "   1x---\n",
        "   1X---\n   2O---\n",
        // Bars: none between the outermost wires, one outside them, one on
        // the wrong side of a hole.
        "   1X---\n   2----\n   3+---\n",
        "   1X---\n   2+---\n   3|---\n",
        "   1|---\n   2X---\n   3+---\n",
        "   1|---\n   2----\n   3X---\n",
        "   1X---\n   2----\n   3|---\n   4+---\n",
    ];
    for page in wrong {
        assert_eq!(gates_on(page.as_bytes()), None, "{page}");
    }
}

/// Checks a circuit's page and gives the classes that it shows.
fn check_page(input: &[u8]) -> Vec<&'static str> {
    let page = page(input);
    let Ok(Circuit { n, ancillas, gates }) = read_circuit(input) else {
        assert_eq!(page, NOT_WELL_FORMED.as_bytes());
        return vec!["refused"];
    };
    let wires = usize::from(n) + usize::from(ancillas);
    let bands = gates.len().div_ceil(19).max(1);
    let lines: Vec<&[u8]> = page.split_inclusive(|byte| *byte == b'\n').collect();
    assert_eq!(lines.len(), bands * wires);
    let columns: usize = lines.iter().map(|line| line.len() - 1).sum();
    assert_eq!(columns, 4 * wires * (bands + gates.len()));
    assert!(lines.iter().all(|line| line.len() <= 81));
    let shown = [
        ("accepted", true),
        ("without gates", gates.is_empty()),
        ("more than one band", bands > 1),
        ("full last band", gates.len() == 19 * bands),
        ("with swaps", gates.iter().any(Gate::is_swap)),
        ("255 wires", wires == 255),
        ("a bar", page.contains(&b'|')),
        ("a control on 0", page.contains(&b'o')),
    ];
    assert_eq!(gates_on(&page), Some(gates));
    let shown = shown.into_iter().filter(|(_, shows)| *shows);
    shown.map(|(class, _)| class).collect()
}

#[test]
fn the_gates_of_random_circuits_are_read_off_their_pages() {
    let counts = check_random(31, 6_000, 19, check_page);
    let least = [
        ("refused", 1_000),
        ("accepted", 4_000),
        ("without gates", 40),
        ("more than one band", 2_000),
        ("full last band", 400),
        ("with swaps", 3_500),
        ("255 wires", 300),
        ("a bar", 3_500),
        ("a control on 0", 3_500),
    ];
    assert_met(&counts, &least);
}

/// A circuit of these gates with as many wires as the page's last row says.
fn circuit_on(page: &[u8], gates: Vec<Gate>) -> Vec<u8> {
    let last = page.split(|byte| *byte == b'\n').rev().nth(1).unwrap();
    let number = String::from_utf8(last[..4].to_vec()).unwrap();
    let wires: u8 = number.trim().parse().unwrap();
    let n = wires.min(32);
    let ancillas = wires - n;
    circuit_bytes(&Circuit { n, ancillas, gates })
}

/// A page with one byte exchanged for one that pages have, where it can be a
/// mark that is no dash.
fn redrawn(random: &mut Random, page: &[u8]) -> Vec<u8> {
    let marks = (0..page.len()).filter(|&place| b"XS+o|".contains(&page[place]));
    let marks: Vec<usize> = marks.collect();
    let mut redrawn = page.to_vec();
    let place = random.pick(&marks).unwrap_or(random.below(page.len()));
    redrawn[place] = random.pick(b"XS+o|- 1\n").unwrap();
    redrawn
}

#[test]
fn bytes_with_gates_are_the_page_of_those_gates() {
    let mut random = Random::from_seed(32);
    let mut counts = Counts::new();
    for turn in 0..30_000 {
        let n = 1 + random.below(6) as u8;
        let gates = random.pick(&[0, 1, 2, 5, 19, 20, 38]).unwrap();
        let whole = page(&circuit(&mut random, n, 2, gates));
        let changed = match turn % 2 {
            0 => damaged(&mut random, &whole),
            _ => redrawn(&mut random, &whole),
        };
        let class = match gates_on(&changed) {
            None => "no page",
            Some(gates) => {
                assert_eq!(page(&circuit_on(&changed, gates)), changed);
                if changed == whole {
                    "the same page"
                } else {
                    "another page"
                }
            }
        };
        add(&mut counts, [class]);
    }
    let least = [
        ("no page", 20_000),
        ("another page", 1_000),
        ("the same page", 1_000),
    ];
    assert_met(&counts, &least);
}
