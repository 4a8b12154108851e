//! Times of the product beside the second interpreter's: verdict, run, compile
//! and inverse of a table, reading, running and listing a circuit and drawing
//! its page. Run, compile and inverse ask for the verdict first, and run, listing
//! and page of a circuit read it first. Both sides are timed in turn in each of
//! many rounds; what is printed is the median, in microseconds a call. A ratio of
//! 1.00 or less means that the product is no slower. Behind that stands how
//! circuits grow with n.

mod compiling;
mod drawing;
mod growth;
mod inverting;
mod listing;
mod rows;
mod sequential;
mod timing;

use foq::LEAST_WORKSPACE;
use foq_generator::circuits::{circuit, circuit_of, crowded_circuit};
use foq_generator::size_left::{reversal, reversal_by_hand};
use foq_generator::tables::{nested_classes, one_in_each_branch, sixteen_in_turn};
use foq_generator::{Random, PAIRS};
use foq_reference::{LONGEST_CIRCUIT, SHORTEST_WORKSPACE};
use rows::{print_rest, print_row, title, used};
use std::hint::black_box;
use timing::rounds;

/// A table, and words to run it from, one after the other.
struct TableCase {
    name: &'static str,
    table: Vec<u8>,
    n: u32,
    words: Vec<u64>,
}

/// Tables of which only the verdict is timed: they have no words.
fn verdict_cases() -> Vec<TableCase> {
    let branches = [4, 8, 16, 32].map(|n| ("one call in each branch", one_in_each_branch(), n));
    let mut tables = vec![
        ("PAIRS", PAIRS.to_vec(), 32),
        ("16 procedures in turn", sixteen_in_turn(), 32),
    ];
    tables.extend(branches);
    let case = |(name, table, n)| TableCase {
        name,
        table,
        n,
        words: vec![],
    };
    tables.into_iter().map(case).collect()
}

/// Tables that are run.
fn run_cases() -> Vec<TableCase> {
    let mut random = Random::from_seed(52);
    let words: Vec<u64> = (0..10_000).map(|_| random.word() >> 32).collect();
    // Each pair of qubits is alike, so that no call is left out.
    let pairs = words.iter().map(|word| (word & 0x5555_5555) * 3);
    vec![
        TableCase {
            name: "PAIRS, any words",
            table: PAIRS.to_vec(),
            n: 32,
            words: words.clone(),
        },
        TableCase {
            name: "PAIRS, words of pairs",
            table: PAIRS.to_vec(),
            n: 32,
            words: pairs.collect(),
        },
        TableCase {
            name: "three nested classes",
            table: nested_classes(3),
            n: 32,
            words: words.clone(),
        },
        TableCase {
            name: "reversal, base 1",
            table: reversal_by_hand(),
            n: 32,
            words: words.clone(),
        },
        TableCase {
            name: "reversal, base 2",
            table: reversal(),
            n: 32,
            words,
        },
    ]
}

/// A circuit to be read and run.
struct CircuitCase {
    name: &'static str,
    circuit: Vec<u8>,
    word: u64,
}

fn circuit_cases() -> [CircuitCase; 4] {
    let mut random = Random::from_seed(51);
    let word = random.word() >> 32;
    [
        CircuitCase {
            name: "PAIRS, n = 32",
            circuit: pairs_circuit(),
            word,
        },
        CircuitCase {
            name: "random gates",
            circuit: circuit(&mut random, 32, 32, LONGEST_CIRCUIT),
            word,
        },
        CircuitCase {
            name: "every wire in each gate",
            circuit: crowded_circuit(&mut random, 32, 223, LONGEST_CIRCUIT),
            word,
        },
        CircuitCase {
            name: "223 controls that hold",
            circuit: holding(),
            word,
        },
    ]
}

/// The circuit of PAIRS on 32 qubits.
fn pairs_circuit() -> Vec<u8> {
    foq_reference::compile(PAIRS, 32, LONGEST_CIRCUIT, SHORTEST_WORKSPACE).unwrap()
}

/// NOTs of data wires under 223 ancillas asked for 0, which all of them hold.
fn holding() -> Vec<u8> {
    let gate = |target| [2, target, 223].into_iter().chain(33..=255).collect();
    let gates: Vec<Vec<u8>> = (1..=32).cycle().map(gate).take(280).collect();
    circuit_of(32, 223, &gates)
}

/// Asserts that both accept the table, and run it to the same ends.
fn assert_tables_agree(case: &TableCase, workspace: &mut [u8]) {
    let TableCase { name, table, n, .. } = case;
    assert_eq!(foq::verdict(table, *n, workspace), Ok(()), "{name}");
    let number = foq_reference::verdict(table, *n, SHORTEST_WORKSPACE);
    assert_eq!(number, 0, "{name}");
    for &word in case.words.iter().take(100) {
        let product = foq::run(table, *n, word, workspace).unwrap();
        let second = foq_reference::run(table, *n, word, SHORTEST_WORKSPACE).unwrap();
        assert_eq!(product, second, "{name}");
    }
}

fn print_verdict(case: &TableCase, workspace: &mut [u8]) {
    let table = || black_box(case.table.as_slice());
    let n = || black_box(case.n);
    let rounds = rounds([
        &mut || used(foq::verdict(table(), n(), workspace)),
        &mut || used(foq_reference::verdict(table(), n(), SHORTEST_WORKSPACE)),
    ]);
    let title = title("verdict", case.name, case.n, case.table.len());
    print_row(&title, &rounds, [0, 1]);
}

/// Each side goes through the words in turn. The walk is what a run takes
/// longer than a verdict.
fn print_run(case: &TableCase, workspace: &mut [u8]) {
    let table = || black_box(case.table.as_slice());
    let n = || black_box(case.n);
    let (mut ours, mut theirs) = (case.words.iter().cycle(), case.words.iter().cycle());
    let other_workspace = &mut workspace.to_vec();
    let rounds = rounds([
        &mut || used(foq::verdict(table(), n(), workspace)),
        &mut || used(foq_reference::verdict(table(), n(), SHORTEST_WORKSPACE)),
        &mut || {
            let word = *ours.next().unwrap();
            used(foq::run(table(), n(), word, other_workspace));
        },
        &mut || {
            let word = *theirs.next().unwrap();
            used(foq_reference::run(table(), n(), word, SHORTEST_WORKSPACE));
        },
    ]);
    let title = |what| title(what, case.name, case.n, case.table.len());
    print_row(&title("run"), &rounds, [2, 3]);
    print_row(&title(" verdict"), &rounds, [0, 1]);
    print_rest(&title(" walk"), &rounds, [2, 3], [0, 1]);
}

fn print_tables() {
    let workspace = &mut vec![0; LEAST_WORKSPACE];
    for case in verdict_cases() {
        assert_tables_agree(&case, workspace);
        print_verdict(&case, workspace);
    }
    for case in run_cases() {
        assert_tables_agree(&case, workspace);
        print_run(&case, workspace);
    }
}

/// Asserts that both run the circuit, and to the same end.
fn assert_circuits_agree(case: &CircuitCase) {
    let product = foq::circuit_run(&case.circuit, case.word).unwrap();
    let second = foq_reference::circuit_run(&case.circuit, case.word).unwrap();
    assert_eq!(product.bits, second.wires, "{}", case.name);
}

fn print_circuit(case: &CircuitCase) {
    let circuit = || black_box(case.circuit.as_slice());
    let word = || black_box(case.word);
    let rounds = rounds([
        &mut || used(foq::circuit_read(circuit())),
        &mut || used(foq_reference::read_circuit(circuit())),
        &mut || used(foq::circuit_run(circuit(), word())),
        &mut || used(foq_reference::circuit_run(circuit(), word())),
    ]);
    let title = |what| title(what, case.name, 32, case.circuit.len());
    print_row(&title("read"), &rounds, [0, 1]);
    print_row(&title("run"), &rounds, [2, 3]);
}

fn main() {
    println!(
        "{:34}{:>3}{:>7}{:>12}{:>12}{:>7}",
        "", "n", "bytes", "product", "second", "ratio"
    );
    print_tables();
    compiling::print();
    inverting::print();
    for case in circuit_cases() {
        assert_circuits_agree(&case);
        print_circuit(&case);
    }
    listing::print();
    drawing::print();
    growth::print();
}
