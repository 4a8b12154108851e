//! Random accepted programs: the circuit does what the run does, and the
//! emission keeps its promises. Each test counts the programs of the classes
//! that it is meant to reach, so that it cannot run empty.

mod met;

use foq_generator::programs::{
    program, program_of_few_classes, Shape, LARGE, MEETING, MERGING, SMALL,
};
use foq_generator::tree::{encode, Program};
use foq_generator::Random;
use foq_reference::{
    circuit_run, compile, emission, gate_bound, read_circuit, read_table, run, verdict, Circuit,
    Emission, Gate,
};
use met::{add, assert_met, Counts};
use std::collections::BTreeSet;
use std::thread;

const WORKSPACE: usize = 32_768;
const ROOM: usize = 65_536;

/// The classes that a program shows for some number of qubits.
type Shown = BTreeSet<&'static str>;

/// Checks one table on n qubits with these start words.
fn check(table: &[u8], n: u32, words: &[u64], shown: &mut Shown) {
    let judged = verdict(table, n, WORKSPACE);
    let bytes = match compile(table, n, ROOM, WORKSPACE) {
        Ok(bytes) => bytes,
        Err(refusal) => {
            let too_large = refusal == 22 || refusal == 23;
            assert_eq!(judged, if too_large { 0 } else { refusal });
            shown.insert(if too_large { "too large" } else { "refused" });
            return;
        }
    };
    assert_eq!(judged, 0);
    shown.insert("accepted");
    let program = read_table(table).unwrap();
    let emitted = emission(&program, n, ROOM).unwrap();
    assert!(emitted.gates.len() as u128 <= gate_bound(&program, n));
    let circuit = read_circuit(&bytes).unwrap();
    check_circuit(&circuit, &emitted);
    for &word in words {
        let end = run(table, n, word, WORKSPACE).unwrap();
        check_word(&circuit, word, end);
        if end != word {
            shown.insert("changes a word");
        }
    }
    assert_eq!(circuit_run(&bytes, words[0]), circuit.run(words[0]));
    show_steps(&emitted, shown);
    if swaps_matter(&circuit, words) {
        shown.insert("swaps matter");
    }
}

/// The circuit read back has the emission's gates, and its ancilla byte is the
/// true peak: every ancilla taken is flipped, so the highest wire of a gate is
/// the last wire ever in use.
fn check_circuit(circuit: &Circuit, emitted: &Emission) {
    assert_eq!(circuit.gates, emitted.gates);
    assert_eq!((circuit.n, circuit.ancillas), (emitted.n, emitted.ancillas));
    let highest = circuit.gates.iter().flat_map(Gate::wires).max();
    let ancillas = highest.unwrap_or(0).saturating_sub(circuit.n);
    assert_eq!(circuit.ancillas, ancillas);
}

/// "wire i from 1 to n holds bit i − 1 of the end word [...] and every other
/// bit is zero."
fn check_word(circuit: &Circuit, word: u64, end: u64) {
    let mut wires = [0; 32];
    wires[..8].copy_from_slice(&end.to_le_bytes());
    assert_eq!(circuit.run(word).unwrap().wires, wires);
}

/// The classes of an emission's steps.
fn show_steps(emitted: &Emission, shown: &mut Shown) {
    let tally = emitted.tally;
    let swaps = emitted.gates.iter().filter(|gate| gate.is_swap()).count();
    assert_eq!(swaps, 2 * tally.swaps);
    let of_one_length = usize::from(tally.most_of_one_length > 1);
    for (class, count) in [
        ("chain", tally.chains),
        ("mutual recursion", tally.mutual),
        ("bodies of one length", of_one_length),
        ("not in the order called", tally.reordered),
        ("merging", tally.entries),
        ("merging at one length", tally.entries_of_one_length),
        ("swap", tally.swaps),
        ("nested in a left part", tally.nested_left),
        ("nested in a right part", tally.nested_right),
    ] {
        if count > 0 {
            shown.insert(class);
        }
    }
}

/// Whether the circuit without its swaps would end otherwise on some word.
fn swaps_matter(circuit: &Circuit, words: &[u64]) -> bool {
    let mut without = circuit.clone();
    without.gates.retain(|gate| !gate.is_swap());
    let differs = |&word: &u64| circuit.run(word) != without.run(word);
    without.gates.len() < circuit.gates.len() && words.iter().any(differs)
}

/// Makes a program of a shape.
type Make = fn(&mut Random, &Shape) -> Program;

/// Checks programs of a seed on every word of 1 to `most` qubits.
fn check_all_words(seed: u64, make: Make, shape: &Shape, programs: usize, most: u32) -> Counts {
    let mut random = Random::from_seed(seed);
    let mut counts = Counts::new();
    for _ in 0..programs {
        let table = encode(&make(&mut random, shape));
        let mut shown = Shown::new();
        for n in 1..=most {
            let words: Vec<u64> = (0..1 << n).collect();
            check(&table, n, &words, &mut shown);
        }
        add(&mut counts, shown);
    }
    counts
}

/// Checks programs of a seed on a few words of a few larger numbers of qubits.
fn check_some_words(seed: u64, shape: &Shape, programs: usize) -> Counts {
    let mut random = Random::from_seed(seed);
    let mut counts = Counts::new();
    for _ in 0..programs {
        let table = encode(&program(&mut random, shape));
        let mut shown = Shown::new();
        for n in [7, 9, 16, 32] {
            let words = [(); 4].map(|()| random.word() & ((1 << n) - 1));
            check(&table, n, &words, &mut shown);
        }
        add(&mut counts, shown);
    }
    counts
}

#[test]
fn circuits_do_what_runs_do_on_every_word() {
    let small = thread::spawn(|| check_all_words(1, program, &SMALL, 16_000, 6));
    let mut counts = check_all_words(2, program, &MERGING, 9_000, 6);
    for (class, count) in small.join().unwrap() {
        *counts.entry(class).or_default() += count;
    }
    let least = [
        ("accepted", 20_000),
        ("changes a word", 15_000),
        ("chain", 20_000),
        ("mutual recursion", 3_000),
        ("merging", 6_000),
        ("swap", 2_000),
        ("swaps matter", 800),
        ("nested in a left part", 4_000),
        ("nested in a right part", 400),
        ("refused", 500),
    ];
    assert_met(&counts, &least);
}

#[test]
fn circuits_of_many_procedures_do_what_runs_do_on_every_word() {
    let counts = check_all_words(3, program, &LARGE, 2_000, 4);
    let least = [
        ("accepted", 1_800),
        ("mutual recursion", 400),
        ("merging", 200),
        ("nested in a left part", 800),
        ("nested in a right part", 100),
    ];
    assert_met(&counts, &least);
}

#[test]
fn circuits_with_bodies_of_one_length_do_what_runs_do_on_every_word() {
    let counts = check_all_words(6, program_of_few_classes, &MEETING, 4_000, 6);
    let least = [
        ("accepted", 3_900),
        ("mutual recursion", 1_000),
        ("bodies of one length", 1_000),
        ("not in the order called", 1_000),
        ("merging at one length", 1_000),
    ];
    assert_met(&counts, &least);
}

#[test]
fn circuits_on_many_qubits_do_what_runs_do_on_some_words() {
    let mut counts = check_some_words(4, &MERGING, 1_000);
    for (class, count) in check_some_words(5, &LARGE, 1_000) {
        *counts.entry(class).or_default() += count;
    }
    let least = [
        ("accepted", 1_800),
        ("merging", 600),
        ("swap", 300),
        ("swaps matter", 150),
        ("too large", 20),
    ];
    assert_met(&counts, &least);
}
