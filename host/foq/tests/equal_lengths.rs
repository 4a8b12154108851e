//! "Bodies of equal list length are now emitted in order of procedure number,
//! lowest first": tables whose procedures meet at one length, compiled beside the
//! second interpreter, their circuits' runs beside the tables' runs; the order of
//! bodies where a writer exchanges calls or procedures. Every room and workspace
//! is lent dirty and looked at afterwards. The random tests count the tables of
//! the classes that they are meant to reach, so that they cannot run empty.

mod compiled;
mod counts;
mod lent;
mod room;
mod steps;
mod words;

use compiled::{assert_read_back, end_alike, Both};
use counts::{add, assert_reached, count, halves, Counts};
use foq_generator::equal_lengths::{equal_lengths, four_of_one_length, sixteen_of_one_length};
use foq_generator::numbers::each_statement;
use foq_generator::programs::{program_of_few_classes, Shape, LARGE, MEETING};
use foq_generator::size_left::by_size_left;
use foq_generator::tree::{encode, Program, Statement};
use foq_generator::{Random, PAIRS};
use foq_reference::{emission, read_circuit, read_table, Action, Tally, LONGEST_CIRCUIT};
use words::{every_word, sampled};

/// The tally of an accepted table's emission.
fn tally_of(table: &[u8], n: u32) -> Tally {
    let program = read_table(table).unwrap();
    emission(&program, n, LONGEST_CIRCUIT).unwrap().tally
}

/// The listing of a circuit, without the first line.
fn gates_listed(circuit: &[u8]) -> Vec<String> {
    let listing = foq::circuit_list_to_string(circuit).unwrap();
    listing.lines().skip(1).map(String::from).collect()
}

#[test]
fn two_calls_are_emitted_as_worked_out_by_hand() {
    let mut both = Both::new();
    // Procedure 1 takes ancilla 4, the procedure that it calls where qubit 1 is 0
    // ancilla 5 and the other one ancilla 6. The body of 2 flips qubit 2, and
    // then that of 3 flips qubit 3. Each goes on with qubit 3 alone.
    for (zero, one, of_2, of_3) in [(3, 2, 6, 5), (2, 3, 5, 6)] {
        let table = equal_lengths(zero, one);
        let circuit = both.circuit(&table, 3).unwrap();
        let gates = [
            "1 X 4".to_string(),
            "2 X 5 -1 +4".to_string(),
            "3 X 6 +1 +4".to_string(),
            format!("4 X 2 +{of_2}"),
            format!("5 X 7 +{of_2}"),
            format!("6 X 3 +{of_3}"),
            format!("7 X 8 +{of_3}"),
            // The later call to procedure 1, and that call taken back.
            "8 X 7 +8".to_string(),
            "9 X 7 +8".to_string(),
            format!("10 X 8 +{of_3}"),
            format!("11 X 7 +{of_2}"),
            "12 X 6 +1 +4".to_string(),
            "13 X 5 -1 +4".to_string(),
            "14 X 4".to_string(),
        ];
        assert_eq!(gates_listed(&circuit), gates);
        assert_eq!(tally_of(&table, 3).reordered, usize::from(zero == 3));
        for n in 1..=10 {
            let circuit = both.circuit(&table, n).unwrap();
            end_alike(&table, n, &circuit, every_word(n));
        }
    }
}

/// The qubits that bodies flip under their ancilla alone, and those ancillas, in
/// the order of the gates.
fn flipped(circuit: &[u8]) -> Vec<(u8, u8)> {
    let circuit = read_circuit(circuit).unwrap();
    let flips = circuit
        .gates
        .iter()
        .filter_map(|gate| match (gate.action, &gate.controls[..]) {
            (Action::Not { target }, [ancilla]) => Some((target, ancilla.wire)),
            _ => None,
        });
    flips.filter(|&(target, _)| target <= circuit.n).collect()
}

#[test]
fn exchanged_calls_leave_the_bodies_in_their_order() {
    let mut both = Both::new();
    let mut counts = Counts::new();
    for turn in 0..256 {
        let called = [0, 2, 4, 6].map(|shift| 2 + (turn >> shift & 3) as u8);
        let table = four_of_one_length(called);
        let circuit = both.circuit(&table, 7).unwrap();
        // Procedures 2 to 5 flip the qubits 4 to 7.
        let mut bodies = called.map(|procedure| procedure + 2).to_vec();
        bodies.sort_unstable();
        bodies.dedup();
        let qubits = flipped(&circuit).into_iter().map(|(qubit, _)| qubit);
        assert_eq!(Vec::from_iter(qubits), bodies);
        end_alike(&table, 7, &circuit, every_word(7));
        let tally = tally_of(&table, 7);
        assert_eq!(tally.most_of_one_length, bodies.len());
        assert!(!called.is_sorted() || tally.reordered == 0);
        count(&mut counts, "in the order called", tally.reordered == 0);
        count(&mut counts, "in another order", tally.reordered > 0);
    }
    let least = [("in the order called", 60), ("in another order", 150)];
    assert_reached(&counts, &least);
}

#[test]
fn sixteen_procedures_of_one_length_go_by_number() {
    let mut both = Both::new();
    let mut random = Random::from_seed(123);
    for n in [5, 8, 11, 20, 32] {
        let table = sixteen_of_one_length(n as i16);
        let circuit = both.circuit(&table, n).unwrap();
        let tally = tally_of(&table, n);
        assert_eq!((tally.most_of_one_length, tally.reordered), (16, 1));
        // Each body flips its first qubit. Of each length the body of procedure
        // 16 was called first, and has the lowest ancilla.
        let qubits = (5..=n as u8).step_by(3);
        let bodies = qubits
            .zip((n as u8 + 2..).step_by(16))
            .flat_map(|(qubit, lowest)| {
                let ancillas = lowest..lowest + 16;
                ancillas.rev().map(move |ancilla| (qubit, ancilla))
            });
        assert_eq!(flipped(&circuit), Vec::from_iter(bodies));
        let words = sampled(&mut random, n, 30);
        end_alike(&table, n, &circuit, words);
    }
}

#[test]
fn pairs_keeps_its_listing() {
    let mut both = Both::new();
    let circuit = both.circuit(PAIRS, 3).unwrap();
    // Document 01's lines.
    let printed = [
        "1 X 4",
        "2 X 5 -1 -2 +4",
        "3 X 6 +1 +2 +4",
        "4 X 5 +6",
        "5 X 3 +5",
        "6 X 5 +6",
        "7 X 6 +1 +2 +4",
        "8 X 5 -1 -2 +4",
        "9 X 4",
    ];
    assert_eq!(gates_listed(&circuit), printed);
}

/// A number of qubits, mostly few.
fn qubits(random: &mut Random) -> u32 {
    let most = random.pick(&[6, 6, 6, 10, 32]).unwrap();
    1 + random.below(most) as u32
}

/// A random program of few classes, with base 2 in some of its numbers.
fn random_program(random: &mut Random) -> Program {
    let three = Shape {
        procedures: 3,
        ..MEETING
    };
    let sixteen = Shape {
        procedures: LARGE.procedures,
        records: LARGE.records,
        ..MEETING
    };
    let shape = random.pick(&[MEETING, three, sixteen]).unwrap();
    let made = program_of_few_classes(random, &shape);
    let percent = random.pick(&[0, 0, 50, 100]).unwrap();
    by_size_left(random, made, percent)
}

/// What was seen of random tables.
#[derive(Default)]
struct Seen {
    /// The tables of each class.
    classes: Counts,
    /// Compile's numbers, 0 where there is a circuit.
    numbers: Counts<u32>,
    /// The circuits by the most bodies of one length in a chain.
    most: Counts<usize>,
    /// The circuits whose bodies of one length go in another order than called,
    /// by the number of qubits.
    reordered: Counts<u32>,
}

impl Seen {
    /// Counts a circuit by its emission. Says whether there are bodies of one
    /// length.
    fn count_tally(&mut self, tally: &Tally, n: u32) -> bool {
        let meet = tally.most_of_one_length > 1;
        let reordered = tally.reordered > 0;
        let merged = tally.entries_of_one_length > 0;
        let nested = tally.nested_left + tally.nested_right > 0;
        count(&mut self.most, tally.most_of_one_length, true);
        count(&mut self.reordered, n, reordered);
        for (class, shown) in [
            ("merged at one length", merged),
            ("merged, reordered", merged && reordered),
            ("swapped, reordered", reordered && tally.swaps > 0),
            ("calls inside, reordered", reordered && nested),
        ] {
            count(&mut self.classes, class, meet && shown);
        }
        meet
    }

    /// Asserts that there were enough tables of each sort.
    fn assert_enough(&self) {
        let classes = [
            ("calls", 40_000),
            ("bodies of one length", 10_000),
            ("not in the order called", 8_000),
            ("merged at one length", 8_000),
            ("merged, reordered", 6_000),
            ("swapped, reordered", 4_000),
            ("calls inside, reordered", 3_000),
            ("every word", 5_000),
            ("changes a word", 8_000),
            ("runs", 150_000),
        ];
        assert_reached(&self.classes, &classes);
        assert_reached(&self.numbers, &[(0, 50_000), (22, 100), (23, 40)]);
        let most: Vec<(usize, usize)> = (0..=6).map(|bodies| (bodies, 100)).collect();
        assert_reached(&self.most, &most);
        let qubits: Vec<(u32, usize)> = (3..=32).map(|n| (n, 50)).collect();
        assert_reached(&self.reordered, &qubits);
    }

    /// Adds what was seen of other tables.
    fn add(&mut self, others: Seen) {
        add(&mut self.classes, others.classes);
        add(&mut self.numbers, others.numbers);
        add(&mut self.most, others.most);
        add(&mut self.reordered, others.reordered);
    }
}

/// Compares so many random tables. Those with bodies of one length are run.
fn compare_tables(seed: u64, tables: usize) -> Seen {
    let mut both = Both::new();
    let mut random = Random::from_seed(seed);
    let mut seen = Seen::default();
    for _ in 0..tables {
        let n = qubits(&mut random);
        let table = encode(&random_program(&mut random));
        let Some(circuit) = both.counted(&table, n, &mut seen.numbers) else {
            continue;
        };
        let tally = assert_read_back(&table, n, &circuit, &mut seen.classes);
        if !seen.count_tally(&tally, n) {
            continue;
        }
        let (changed, runs) = if n <= 6 {
            end_alike(&table, n, &circuit, every_word(n))
        } else {
            end_alike(&table, n, &circuit, sampled(&mut random, n, 4))
        };
        count(&mut seen.classes, "every word", n <= 6);
        count(&mut seen.classes, "changes a word", changed);
        *seen.classes.entry("runs").or_default() += runs;
    }
    seen
}

#[test]
fn random_tables_compile_alike() {
    let mut seen = Seen::default();
    for half in halves([121, 122], |seed| compare_tables(seed, 30_000)) {
        seen.add(half);
    }
    seen.assert_enough();
}

/// The program with two of its procedures exchanged, which means the same.
fn exchanged(mut program: Program, one: u8, other: u8) -> Program {
    let [first, second] = [one, other].map(|procedure| usize::from(procedure) - 1);
    program.bodies.swap(first, second);
    each_statement(&mut program, &mut |statement| {
        if let Statement::Call(_, procedure) = statement {
            *procedure = match *procedure {
                to if to == one => other,
                to if to == other => one,
                to => to,
            };
        }
    });
    program
}

/// The number of gates that are no swaps. Which list of a pair is the first one
/// can follow from the order of bodies, and so do the swaps.
fn nots(circuit: &[u8]) -> usize {
    let gates = read_circuit(circuit).unwrap().gates;
    gates.iter().filter(|gate| !gate.is_swap()).count()
}

/// Only bodies of one length go by the numbers of their procedures: other
/// circuits stay when procedures are exchanged.
#[test]
fn exchanged_procedures_matter_at_one_length_alone() {
    let mut both = Both::new();
    let mut random = Random::from_seed(124);
    let mut counts = Counts::new();
    for _ in 0..6_000 {
        let n = qubits(&mut random);
        let program = random_program(&mut random);
        let procedures = program.bodies.len();
        let [one, other] = [(); 2].map(|()| 1 + random.below(procedures) as u8);
        let changed = exchanged(program.clone(), one, other);
        let [table, changed] = [program, changed].map(|program| encode(&program));
        let [Ok(circuit), Ok(other)] = [&table, &changed].map(|table| both.circuit(table, n))
        else {
            continue;
        };
        let meet = tally_of(&table, n).most_of_one_length > 1;
        let same = circuit == other;
        assert!(same || meet);
        assert_eq!(nots(&circuit), nots(&other));
        end_alike(&table, n, &other, sampled(&mut random, n, 2));
        count(&mut counts, "no bodies of one length", !meet);
        count(&mut counts, "the same at one length", meet && same);
        count(&mut counts, "another circuit", !same);
    }
    let least = [
        ("no bodies of one length", 4_000),
        ("the same at one length", 300),
        ("another circuit", 400),
    ];
    assert_reached(&counts, &least);
}
