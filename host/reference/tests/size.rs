//! Document 02, S-4, the published circuit size: "The size on the listing's
//! first line becomes gates plus data wires plus ancillas". Circuits given as
//! bytes are listed here too, for texts too short and long enough. Listings are
//! written by hand from the documents; those of random circuits are read again.

mod circuits;
mod met;

use circuits::check_random;
use foq_generator::circuits::circuit_of;
use foq_generator::damage::{single_changes, truncations};
use foq_generator::programs::{program, LARGE, MERGING, SMALL};
use foq_generator::tree::encode;
use foq_generator::{Random, PAIRS};
use foq_reference::{
    circuit_list, compile, gate_bound, listing, read_circuit, read_table, Action, Circuit, Control,
    Gate, LONGEST_CIRCUIT, SHORTEST_WORKSPACE,
};
use met::{add, assert_met, Counts};

/// The bytes of the gate that a listing prints as `X 1`.
const X_1: &[u8] = &[0, 1];
/// The bytes of `S 1 2`.
const S_1_2: &[u8] = &[4, 1, 2];
/// No gates.
const NONE: [&[u8]; 0] = [];

/// Lengths of texts, from none to more than any listing takes.
const TEXTS: [usize; 6] = [0, 1, 5, 6, LONGEST_CIRCUIT, usize::MAX];

fn compiled(table: &[u8], n: u8) -> Result<Vec<u8>, u32> {
    compile(table, u32::from(n), LONGEST_CIRCUIT, SHORTEST_WORKSPACE)
}

fn pairs_at(n: u8) -> Vec<u8> {
    compiled(PAIRS, n).unwrap()
}

fn listed(table: &[u8], n: u8) -> Vec<u8> {
    listing(&[&[n], table].concat())
}

/// Checks that a circuit lists as written where the text is long enough, and
/// that it gives 23 where the text is too short.
fn check(circuit: &[u8], written: &str) {
    let length = written.len();
    for text in [0, 1, length / 2, length - 1] {
        assert_eq!(circuit_list(circuit, text), Err(23), "{text} bytes");
    }
    for text in [length, length + 1, length + LONGEST_CIRCUIT, usize::MAX] {
        let lines = circuit_list(circuit, text).unwrap();
        assert_eq!(String::from_utf8(lines).unwrap(), written);
    }
}

/// Checks that bytes give 14, however long the text is: 14 comes before 23.
fn check_refused(bytes: &[u8]) {
    for text in TEXTS {
        assert_eq!(circuit_list(bytes, text), Err(14), "{bytes:?}");
    }
}

/// "so PAIRS at n = 3 begins `3 3 15`": 9 gates, 3 data wires and 3 ancillas.
#[test]
fn pairs_at_3_begins_3_3_15() {
    let lines = String::from_utf8(listed(PAIRS, 3)).unwrap();
    assert!(lines.starts_with("3 3 15\n1 X 4\n"));
    check(&pairs_at(3), &lines);
}

#[test]
fn pairs_at_1_and_2_have_their_wires_in_their_sizes() {
    // n = 1: the chain's ancilla, the NOT under it, the ancilla again.
    check(&pairs_at(1), "1 1 5\n1 X 2\n2 X 1 +2\n3 X 2\n");
    // n = 2: PAIRS does nothing there but to flip its ancilla twice.
    check(&pairs_at(2), "2 1 5\n1 X 3\n2 X 3\n");
}

#[test]
fn the_size_of_a_circuit_without_gates_is_the_number_of_its_wires() {
    check(&circuit_of(1, 0, &NONE), "1 0 1\n");
    check(&circuit_of(2, 1, &NONE), "2 1 3\n");
    check(&circuit_of(32, 0, &NONE), "32 0 32\n");
    check(&circuit_of(32, 223, &NONE), "32 223 255\n");
    check(&circuit_of(1, 254, &NONE), "1 254 255\n");
}

#[test]
fn a_circuit_of_255_wires_is_larger_than_a_byte_can_say() {
    // X 255 +1, S 1 255, X 128, X 1 -255, and S 3 9 under controls outside
    // and between.
    let gates: [&[u8]; 5] = [
        &[1, 255, 1, 1],
        &[4, 1, 255],
        &[0, 128],
        &[2, 1, 1, 255],
        &[7, 3, 2, 1, 11, 1, 5, 9],
    ];
    let lines = "1 X 255 +1\n2 S 1 255\n3 X 128\n4 X 1 -255\n5 S 3 9 +1 -5 +11\n";
    check(
        &circuit_of(32, 223, &gates),
        &format!("32 223 260\n{lines}"),
    );
    check(&circuit_of(1, 254, &gates), &format!("1 254 260\n{lines}"));
    check(&circuit_of(32, 223, &[X_1]), "32 223 256\n1 X 1\n");
    check_refused(&circuit_of(32, 224, &gates));
    check_refused(&circuit_of(2, 254, &NONE));
}

#[test]
fn data_wires_and_ancillas_of_every_number_are_counted() {
    let lines = ["", "1 X 1\n", "1 X 1\n2 X 1\n"];
    for n in 1..=32 {
        for ancillas in 0..=255 - n {
            for (gates, lines) in lines.iter().enumerate() {
                let size = gates + usize::from(n) + usize::from(ancillas);
                let written = format!("{n} {ancillas} {size}\n{lines}");
                let bytes = circuit_of(n, ancillas, &vec![X_1; gates]);
                assert_eq!(
                    circuit_list(&bytes, written.len()),
                    Ok(written.into_bytes())
                );
            }
        }
    }
}

#[test]
fn the_longest_circuit_is_listed_and_a_byte_more_is_not() {
    // 7 + 3 + 2 × 32,763 = 65,536 bytes.
    let mut gates = vec![X_1; 32_764];
    gates[0] = S_1_2;
    let longest = circuit_of(2, 0, &gates);
    assert_eq!(longest.len(), 65_536);
    let others: String = (2..=32_764).map(|gate| format!("{gate} X 1\n")).collect();
    let written = format!("2 0 32766\n1 S 1 2\n{others}");
    // Far more than a circuit can have.
    assert_eq!(written.len(), 316_546);
    check(&longest, &written);
    assert_eq!(circuit_list(&longest, LONGEST_CIRCUIT), Err(23));
    // The largest size of all: as many gates as there can be, and 255 wires.
    let largest = circuit_of(32, 223, &vec![X_1; 32_764]);
    let lines = circuit_list(&largest, usize::MAX).unwrap();
    assert!(lines.starts_with(b"32 223 33019\n1 X 1\n"));
    assert!(lines.ends_with(b"\n32764 X 1\n"));
    let longer = circuit_of(2, 0, &vec![X_1; 32_765]);
    assert_eq!(longer.len(), 65_537);
    for text in TEXTS {
        assert!(circuit_list(&longer, text) == Err(14));
    }
}

#[test]
fn header_and_reader_still_give_the_gate_count() {
    let mut pairs = pairs_at(3);
    assert_eq!(pairs[..7], [1, 3, 3, 9, 0, 0, 0]);
    let read = read_circuit(&pairs).unwrap();
    assert_eq!((read.n, read.ancillas, read.gates.len()), (3, 3, 9));
    // "the count is true": the size is no count of the gates.
    pairs[3] = 15;
    assert_eq!(read_circuit(&pairs), Err(14));
    check_refused(&pairs);
}

/// "The polynomial of document 01 still limits the gates alone".
#[test]
fn the_bound_still_limits_the_gates_alone() {
    // Without NOT and call the bound is 0, and no gate is emitted; the size
    // is past it.
    let skip = [1, 0, 0, 0];
    let program = read_table(&skip).unwrap();
    for n in 1..=32 {
        assert_eq!(gate_bound(&program, u32::from(n)), 0);
        assert_eq!(listed(&skip, n), format!("{n} 0 {n}\n").into_bytes());
    }
    // PAIRS has s = 4, c = 3, p = 1 and r = 1.
    let program = read_table(PAIRS).unwrap();
    for n in 1..=32 {
        let bound = 4 * (4 + 2 * u128::from(n)) * (1 + 3 * u128::from(n));
        assert_eq!(gate_bound(&program, n), bound);
    }
}

#[test]
fn a_text_is_long_enough_or_gives_23() {
    for circuit in [
        circuit_of(1, 0, &NONE),
        circuit_of(32, 223, &NONE),
        circuit_of(2, 0, &[S_1_2]),
        pairs_at(3),
        pairs_at(7),
    ] {
        let lines = circuit_list(&circuit, usize::MAX).unwrap();
        for text in 0..lines.len() {
            assert_eq!(circuit_list(&circuit, text), Err(23), "{text} bytes");
        }
        for text in lines.len()..lines.len() + 300 {
            assert_eq!(circuit_list(&circuit, text), Ok(lines.clone()));
        }
    }
}

#[test]
fn bytes_that_are_no_circuit_give_14_before_23() {
    let pairs = pairs_at(3);
    for truncated in truncations(&pairs) {
        check_refused(&truncated);
    }
    check_refused(&[&pairs, [0].as_slice()].concat());
    let mut counts = [0; 2];
    for changed in single_changes(&pairs) {
        let refused = read_circuit(&changed).is_err();
        let expected = if refused { 14 } else { 23 };
        assert_eq!(circuit_list(&changed, 0), Err(expected));
        assert_eq!(circuit_list(&changed, usize::MAX).is_err(), refused);
        counts[usize::from(refused)] += 1;
    }
    println!("listed {}, refused {}", counts[0], counts[1]);
    assert!(counts.iter().all(|&count| count > 100));
}

/// A number as it is printed: decimal, without a sign or zeros before it.
fn number(word: &str) -> usize {
    let number: usize = word.parse().unwrap();
    assert_eq!(number.to_string(), word);
    number
}

fn wire(word: &str) -> u8 {
    u8::try_from(number(word)).unwrap()
}

/// "(+ on 1, − on 0, printed as a hyphen)".
fn control(word: &&str) -> Control {
    let (sign, wire_number) = word.split_at(1);
    let asks = match sign {
        "+" => true,
        "-" => false,
        _ => panic!("no control: {word}"),
    };
    Control {
        wire: wire(wire_number),
        asks,
    }
}

/// "then gate number, X or S, target (for a swap both, lower first),
/// controls": the gate of a line, which must have this number.
fn gate((place, line): (usize, &str)) -> Gate {
    let words: Vec<&str> = line.split(' ').collect();
    assert_eq!(number(words[0]), place);
    let (action, controls) = match &words[1..] {
        ["X", target, controls @ ..] => {
            let target = wire(target);
            (Action::Not { target }, controls)
        }
        ["S", lower, upper, controls @ ..] => {
            let (lower, upper) = (wire(lower), wire(upper));
            (Action::Swap { lower, upper }, controls)
        }
        _ => panic!("no gate: {line}"),
    };
    Gate {
        action,
        controls: controls.iter().map(control).collect(),
    }
}

/// Reads a listing: "n, ancillas, size", and the gates.
fn read_listing(lines: &[u8]) -> ([usize; 3], Vec<Gate>) {
    let lines = std::str::from_utf8(lines).unwrap();
    let mut lines = lines.strip_suffix('\n').unwrap().split('\n');
    let first = lines.next().unwrap().split(' ').map(number);
    let first: Vec<usize> = first.collect();
    let gates = (1..).zip(lines).map(gate).collect();
    (first.try_into().unwrap(), gates)
}

/// Checks a circuit's listing and gives the classes that it shows.
fn check_listing(input: &[u8]) -> Vec<&'static str> {
    let Ok(Circuit { n, ancillas, gates }) = read_circuit(input) else {
        check_refused(input);
        return vec!["refused"];
    };
    let lines = circuit_list(input, usize::MAX).unwrap();
    check(input, std::str::from_utf8(&lines).unwrap());
    let (n, ancillas) = (usize::from(n), usize::from(ancillas));
    let (first, listed) = read_listing(&lines);
    let size = gates.len() + n + ancillas;
    assert_eq!(first, [n, ancillas, size]);
    assert_eq!(listed, gates);
    let controls = |bit| move |gate: &Gate| gate.controls.iter().any(|control| control.asks == bit);
    let shown = [
        ("listed", true),
        ("without gates", gates.is_empty()),
        ("without ancillas", ancillas == 0),
        ("255 wires", n + ancillas == 255),
        ("a size of one digit", size < 10),
        ("a size of four digits", size >= 1_000),
        ("a swap", gates.iter().any(Gate::is_swap)),
        ("a control on 1", gates.iter().any(controls(true))),
        ("a control on 0", gates.iter().any(controls(false))),
        ("longer than any circuit", lines.len() > LONGEST_CIRCUIT),
    ];
    let shown = shown.into_iter().filter(|(_, shows)| *shows);
    shown.map(|(class, _)| class).collect()
}

#[test]
fn random_circuits_are_read_off_their_listings() {
    let counts = check_random(41, 3_000, 1_000, check_listing);
    let least = [
        ("refused", 700),
        ("listed", 2_000),
        ("without gates", 30),
        ("without ancillas", 120),
        ("255 wires", 150),
        ("a size of one digit", 10),
        ("a size of four digits", 200),
        ("a swap", 1_700),
        ("a control on 1", 1_700),
        ("a control on 0", 1_700),
        ("longer than any circuit", 25),
    ];
    assert_met(&counts, &least);
}

/// Checks that a table on n qubits lists as its circuit does, or as its
/// refusal, and gives the class that it shows.
fn check_table(table: &[u8], n: u8) -> &'static str {
    let lines = listed(table, n);
    let bytes = match compiled(table, n) {
        Ok(bytes) => bytes,
        Err(refusal) => {
            assert_eq!(lines, format!("{refusal}\n").into_bytes());
            return "refused";
        }
    };
    let gates = u32::from_le_bytes(bytes[3..7].try_into().unwrap());
    let program = read_table(table).unwrap();
    assert!(u128::from(gates) <= gate_bound(&program, u32::from(n)));
    let (first, read) = read_listing(&lines);
    assert_eq!(read.len(), gates as usize);
    let wires = usize::from(bytes[1]) + usize::from(bytes[2]);
    assert_eq!(first[2], read.len() + wires);
    assert_eq!(circuit_list(&bytes, lines.len() - 1), Err(23));
    assert_eq!(circuit_list(&bytes, lines.len()), Ok(lines));
    match bytes[2] {
        0 => "without ancillas",
        _ => "with ancillas",
    }
}

#[test]
fn random_tables_list_as_their_circuits() {
    let mut random = Random::from_seed(42);
    let mut counts = Counts::new();
    for turn in 0..3_000 {
        let mut shape = [SMALL, MERGING, LARGE][turn % 3];
        shape.slips = [0, 6][turn % 2];
        let table = encode(&program(&mut random, &shape));
        for n in [1, 2, 3, 5, 8] {
            add(&mut counts, [check_table(&table, n)]);
        }
    }
    let least = [
        ("refused", 1_000),
        ("without ancillas", 3_000),
        ("with ancillas", 9_000),
    ];
    assert_met(&counts, &least);
}
