//! The circuit reader and the circuit run beside the second interpreter's, on
//! circuits that are well formed, damaged or at a limit. Each test counts the
//! inputs of the classes that it is meant to reach, so that it cannot run empty.

mod counts;

use counts::{assert_reached, count, Counts};
use foq::border;
use foq_expected::{block, header};
use foq_generator::circuits::{circuit, circuit_of, crowded_circuit, sizes};
use foq_generator::damage::{damaged, single_changes, truncations};
use foq_generator::{Random, PAIRS};
use foq_reference::{compile, read_circuit, Block, Gate, LONGEST_CIRCUIT, SHORTEST_WORKSPACE};

/// Asks both about a circuit and about its run from each word.
fn compare(bytes: &[u8], words: &[u64], counts: &mut Counts) {
    let read = read_circuit(bytes);
    assert_eq!(border::circuit_read(bytes), header(&read), "{bytes:02x?}");
    count(counts, "well formed", read.is_ok());
    count(counts, "14", read.is_err());
    for &word in words {
        let ran = read.clone().and_then(|circuit| circuit.run(word));
        count(counts, "13", ran == Err(13));
        count(counts, "changes a word", changes(&ran, word));
        let given = border::circuit_run(bytes, word);
        assert_eq!(given, block(ran), "{word:x} {bytes:02x?}");
    }
}

/// Whether the wires at the end are other than at the start.
fn changes(ran: &Result<Block, u32>, word: u64) -> bool {
    let mut start = [0; 32];
    start[..8].copy_from_slice(&word.to_le_bytes());
    ran.is_ok_and(|block| block.wires != start)
}

/// Words for a circuit on n qubits: the ends of what fits, one between, and
/// three with a bit too high.
fn words(random: &mut Random, n: u8) -> [u64; 6] {
    let past = 1 << (n % 64);
    let between = random.word() % past;
    [
        0,
        past - 1,
        between,
        past,
        between | 1 << 63,
        random.word() | past,
    ]
}

/// Words for bytes that may be a circuit: its second byte would be n.
fn words_for(random: &mut Random, bytes: &[u8]) -> [u64; 6] {
    words(random, bytes.get(1).copied().unwrap_or(1))
}

/// The circuit of PAIRS.
fn pairs(n: u32) -> Vec<u8> {
    compile(PAIRS, n, LONGEST_CIRCUIT, SHORTEST_WORKSPACE).unwrap()
}

/// A random circuit on any number of wires.
fn any_circuit(random: &mut Random, gates: usize) -> Vec<u8> {
    let (n, ancillas) = sizes(random);
    circuit(random, n, ancillas, gates)
}

/// PAIRS on three qubits and some random circuits on few wires.
fn short_circuits(random: &mut Random) -> Vec<Vec<u8>> {
    let mut circuits = vec![pairs(3)];
    for gates in 0..8 {
        circuits.push(circuit(random, 3, 2, gates));
    }
    circuits
}

#[test]
fn well_formed_circuits_are_run_alike() {
    let mut random = Random::from_seed(31);
    let mut counts = Counts::new();
    for _ in 0..50_000 {
        let gates = random.below(20);
        let bytes = any_circuit(&mut random, gates);
        let words = words_for(&mut random, &bytes);
        compare(&bytes, &words, &mut counts);
        let read = read_circuit(&bytes).unwrap();
        let wires = u32::from(read.n) + u32::from(read.ancillas);
        count(&mut counts, "swap", read.gates.iter().any(Gate::is_swap));
        count(&mut counts, "255 wires", wires == 255);
        count(&mut counts, "32 qubits", read.n == 32);
        count(&mut counts, "no gate", read.gates.is_empty());
    }
    let least = [
        ("well formed", 50_000),
        ("13", 150_000),
        ("changes a word", 100_000),
        ("swap", 30_000),
        ("255 wires", 4_000),
        ("32 qubits", 1_000),
        ("no gate", 1_000),
    ];
    assert_reached(&counts, &least);
}

#[test]
fn circuits_of_pairs_are_run_alike() {
    let mut random = Random::from_seed(32);
    let mut counts = Counts::new();
    for n in 1..=32 {
        for _ in 0..50 {
            let words = words(&mut random, n as u8);
            compare(&pairs(n), &words, &mut counts);
        }
    }
    let least = [("well formed", 1_600), ("changes a word", 1_500)];
    assert_reached(&counts, &least);
}

/// A circuit of one gate: every row of at most 7 bytes whose first is at most
/// 8 and whose others are at most one more than the last wire.
#[test]
fn every_short_gate_is_read_alike() {
    let mut counts = Counts::new();
    let mut rows: Vec<Vec<u8>> = vec![vec![]];
    for length in 0..=7 {
        for row in &rows {
            let bytes = circuit_of(2, 2, &[row]);
            compare(&bytes, &[0, 1, 2, 3, 4], &mut counts);
        }
        let top = if length == 0 { 8 } else { 5 };
        let longer = rows.iter().flat_map(|row| {
            let row = row.clone();
            (0..=top).map(move |byte| [&row[..], &[byte]].concat())
        });
        rows = longer.collect();
    }
    // 4 targets bare or under some of 3 other wires, on 1 or 0, make 4 × 3³
    // NOTs; 6 pairs under some of 2 other wires make 6 × 3² swaps.
    assert_eq!(counts["well formed"], 108 + 54);
    assert_reached(&counts, &[("14", 500_000), ("changes a word", 100)]);
}

#[test]
fn every_single_change_is_answered_alike() {
    let mut random = Random::from_seed(33);
    let mut counts = Counts::new();
    for bytes in short_circuits(&mut random) {
        let words = words_for(&mut random, &bytes);
        for changed in single_changes(&bytes) {
            compare(&changed, &words[..4], &mut counts);
        }
    }
    let least = [("well formed", 2_000), ("14", 40_000), ("13", 2_000)];
    assert_reached(&counts, &least);
}

#[test]
fn damaged_circuits_are_answered_alike() {
    let mut random = Random::from_seed(34);
    let mut counts = Counts::new();
    for _ in 0..60_000 {
        let gates = 1 + random.below(12);
        let whole = any_circuit(&mut random, gates);
        let bytes = damaged(&mut random, &whole);
        let words = words_for(&mut random, &bytes);
        compare(&bytes, &words, &mut counts);
    }
    let least = [("well formed", 5_000), ("14", 40_000), ("13", 10_000)];
    assert_reached(&counts, &least);
}

#[test]
fn every_truncation_is_refused_alike() {
    let mut random = Random::from_seed(35);
    let mut counts = Counts::new();
    let mut circuits = short_circuits(&mut random);
    circuits.extend((0..100).map(|_| any_circuit(&mut random, 15)));
    for bytes in &circuits {
        for truncated in truncations(bytes) {
            compare(&truncated, &[0, 1 << 63], &mut counts);
        }
    }
    assert_eq!(counts["well formed"], 0);
    assert_reached(&counts, &[("14", 10_000)]);
}

#[test]
fn appended_bytes_are_refused_alike() {
    let mut random = Random::from_seed(36);
    let mut counts = Counts::new();
    for bytes in short_circuits(&mut random) {
        for byte in 0..=255 {
            compare(&[&bytes[..], &[byte]].concat(), &[0], &mut counts);
        }
        let gates = &bytes[7..];
        if !gates.is_empty() {
            compare(&[&bytes[..], gates].concat(), &[0], &mut counts);
        }
    }
    assert_eq!(counts["well formed"], 0);
    assert_reached(&counts, &[("14", 2_000)]);
}

#[test]
fn false_counts_are_refused_alike() {
    let mut random = Random::from_seed(37);
    let mut counts = Counts::new();
    for _ in 0..1_000 {
        let mut bytes = any_circuit(&mut random, 300);
        let gates = u32::try_from(read_circuit(&bytes).unwrap().gates.len()).unwrap();
        for count in [
            gates - 1,
            gates + 1,
            0,
            gates ^ 1 << 8,
            gates ^ 1 << 31,
            u32::MAX,
        ] {
            bytes[3..7].copy_from_slice(&count.to_le_bytes());
            compare(&bytes, &[0], &mut counts);
        }
    }
    assert_eq!(counts["well formed"], 0);
    assert_reached(&counts, &[("14", 6_000)]);
}

/// A circuit of exactly this length: swaps and NOTs of 3 and 2 bytes.
fn long_circuit(length: usize) -> Vec<u8> {
    let gates = length - 7;
    let mut rows: Vec<&[u8]> = vec![&[0, 1]; gates / 2];
    if gates % 2 == 1 {
        rows[0] = &[4, 1, 2];
    }
    circuit_of(2, 0, &rows)
}

#[test]
fn circuits_of_the_longest_length_are_run_alike() {
    let mut random = Random::from_seed(38);
    let mut counts = Counts::new();
    for length in LONGEST_CIRCUIT - 2..=LONGEST_CIRCUIT {
        let bytes = long_circuit(length);
        assert_eq!(bytes.len(), length);
        compare(&bytes, &[0, 1, 2, 3, 4], &mut counts);
    }
    for make in [circuit, crowded_circuit] {
        for _ in 0..10 {
            let (n, ancillas) = sizes(&mut random);
            let bytes = make(&mut random, n, ancillas, LONGEST_CIRCUIT);
            compare(&bytes, &words(&mut random, n), &mut counts);
        }
    }
    assert_eq!(counts["well formed"], 23);
    assert_eq!(counts["14"], 0);
    assert_reached(&counts, &[("changes a word", 30)]);
}

#[test]
fn circuits_past_the_longest_length_are_refused_alike() {
    let mut counts = Counts::new();
    for length in [
        LONGEST_CIRCUIT + 1,
        LONGEST_CIRCUIT + 2,
        2 * LONGEST_CIRCUIT,
        1 << 20,
    ] {
        let bytes = long_circuit(length);
        assert_eq!(bytes.len(), length);
        compare(&bytes, &[0, 4], &mut counts);
    }
    assert_eq!(counts["14"], 4);
}

/// Gates with a wire in each of its places: target of a NOT and of a swap,
/// second wire of a swap, the last control on 1, the last control on 0.
fn gates_with(wire: u8) -> [Vec<u8>; 5] {
    [
        vec![0, wire],
        vec![4, wire, 255],
        vec![4, 1, wire],
        vec![1, 1, 2, 2, wire],
        vec![2, 1, 2, 2, wire],
    ]
}

#[test]
fn wires_at_the_limits_are_read_alike() {
    let mut counts = Counts::new();
    for n in [0u8, 1, 2, 3, 31, 32, 33, 255] {
        let most = 255 - n;
        for ancillas in [0, 1, most / 2, most, most.saturating_add(1), 255] {
            let last = n.saturating_add(ancillas);
            for wire in [0, 1, 2, last / 2, last, last.wrapping_add(1), 255] {
                for gate in gates_with(wire) {
                    compare(&circuit_of(n, ancillas, &[gate]), &[0, 1], &mut counts);
                }
            }
        }
    }
    let least = [("well formed", 200), ("14", 1_000), ("changes a word", 100)];
    assert_reached(&counts, &least);
}

#[test]
fn the_last_wire_is_a_wire_and_the_next_is_none() {
    let mut counts = Counts::new();
    for (n, ancillas) in [(3, 0), (32, 0), (3, 252), (32, 223), (32, 222)] {
        let last = n + ancillas;
        for gate in &gates_with(last)[2..] {
            let bytes = circuit_of(n, ancillas, &[gate]);
            compare(&bytes, &[0, 1, 2, 3], &mut counts);
        }
        if let Some(next) = last.checked_add(1) {
            let gates = gates_with(next);
            let refused = gates.iter().map(|gate| circuit_of(n, ancillas, &[gate]));
            refused.for_each(|bytes| compare(&bytes, &[0], &mut counts));
        }
    }
    assert_eq!(counts["well formed"], 15);
    assert_eq!(counts["14"], 15);
}

#[test]
fn sums_of_wires_past_255_are_refused_alike() {
    let mut counts = Counts::new();
    for n in 0..=255 {
        for ancillas in 0..=255 {
            compare(&circuit_of::<&[u8]>(n, ancillas, &[]), &[0], &mut counts);
        }
    }
    let well_formed: usize = (1..=32).map(|n| 256 - n).sum();
    assert_eq!(counts["well formed"], well_formed);
    assert_eq!(counts["14"], 65_536 - well_formed);
}

#[test]
fn words_at_the_limits_are_answered_alike() {
    let mut random = Random::from_seed(39);
    let mut counts = Counts::new();
    for n in 1..=32 {
        let bytes = circuit(&mut random, n, 3, 10);
        let within: Vec<u64> = (0..n).map(|bit| 1 << bit).collect();
        compare(&bytes, &within, &mut counts);
        compare(&bytes, &[0, (1 << n) - 1], &mut counts);
        let past: Vec<u64> = (n..64).map(|bit| 1 << bit).collect();
        compare(&bytes, &past, &mut counts);
        let cut = &bytes[..bytes.len() - 1];
        compare(cut, &past, &mut counts);
    }
    let past: usize = (1..=32).map(|n| 64 - n).sum();
    assert_eq!(counts["13"], past);
    assert_eq!(counts["14"], 32);
}

#[test]
fn an_empty_slice_is_refused_alike() {
    let mut counts = Counts::new();
    compare(&[], &[0, 1, u64::MAX], &mut counts);
    compare(&vec![1, 1, 0, 0, 0, 0, 0][7..], &[0], &mut counts);
    assert_eq!(counts["14"], 2);
}
