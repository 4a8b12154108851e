//! Damaged, wild and random bytes: no input is without one of the documented
//! answers, and the quick look for access faults agrees with the plain one.

use foq_generator::circuits::circuit;
use foq_generator::damage::{damaged, single_changes, truncations};
use foq_generator::programs::{program, wild_program, LARGE, MERGING, SMALL};
use foq_generator::tables::every_kind;
use foq_generator::tree::encode;
use foq_generator::{Random, PAIRS};
use foq_reference::{
    circuit_bytes, circuit_run, compile, listing, plain_verdict, read_circuit, run, verdict,
};
use std::collections::BTreeMap;

const WORKSPACE: usize = 32_768;
const ROOM: usize = 65_536;

/// How often each number was the verdict.
type Verdicts = BTreeMap<u32, usize>;

/// Asks every operation about a table on n qubits and compares the answers.
fn ask(table: &[u8], n: u32, verdicts: &mut Verdicts) {
    let number = verdict(table, n, WORKSPACE);
    assert!(number <= 12);
    assert_eq!(plain_verdict(table, n, WORKSPACE), number);
    *verdicts.entry(number).or_default() += 1;
    let refused = if number == 0 { 21 } else { number };
    assert_eq!(verdict(table, n, WORKSPACE - 1), refused);
    assert_eq!(run(table, n, 0, 0), Err(refused));
    assert_eq!(compile(table, n, 0, 0), Err(refused));
    let past_n = run(table, n, 1 << n, 0);
    assert_eq!(past_n, Err(if number == 0 { 13 } else { number }));
    match compile(table, n, ROOM, WORKSPACE) {
        Ok(bytes) => {
            assert_eq!(number, 0);
            let end = run(table, n, 1, WORKSPACE).unwrap();
            let block = circuit_run(&bytes, 1).unwrap();
            assert_eq!(block.wires[..8], end.to_le_bytes());
        }
        Err(refusal) if number == 0 => assert!(refusal == 22 || refusal == 23),
        Err(refusal) => assert_eq!(refusal, number),
    }
}

/// Asserts that each of these numbers was a verdict.
fn assert_met(verdicts: &Verdicts, numbers: impl IntoIterator<Item = u32>) {
    println!("{verdicts:?}");
    for number in numbers {
        assert!(verdicts.contains_key(&number), "no {number}");
    }
}

#[test]
fn every_truncation_stops_too_soon() {
    for table in [PAIRS.to_vec(), every_kind()] {
        for truncated in truncations(&table) {
            assert_eq!(verdict(&truncated, 3, WORKSPACE), 1);
            assert_eq!(plain_verdict(&truncated, 3, WORKSPACE), 1);
            let listed = listing(&[&[3], truncated.as_slice()].concat());
            assert_eq!(listed, b"1\n");
        }
    }
}

#[test]
fn every_single_change_has_an_answer() {
    let mut verdicts = Verdicts::new();
    for table in [PAIRS.to_vec(), every_kind()] {
        ask(&table, 4, &mut verdicts);
        for changed in single_changes(&table) {
            for n in [1, 2, 3, 4] {
                ask(&changed, n, &mut verdicts);
            }
        }
    }
    assert_met(&verdicts, (0..=6).chain([8, 10, 12]));
}

#[test]
fn damaged_random_tables_have_an_answer() {
    let mut random = Random::from_seed(11);
    let mut verdicts = Verdicts::new();
    for _ in 0..10_000 {
        let whole = encode(&program(&mut random, &SMALL));
        let table = damaged(&mut random, &whole);
        for n in [1, 2, 3, 5] {
            ask(&table, n, &mut verdicts);
        }
    }
    assert_met(&verdicts, (0..=6).chain([8, 12]));
}

#[test]
fn wild_tables_have_an_answer() {
    let mut random = Random::from_seed(12);
    let mut verdicts = Verdicts::new();
    for _ in 0..40_000 {
        let table = encode(&wild_program(&mut random, &SMALL));
        for n in 1..=5 {
            ask(&table, n, &mut verdicts);
        }
    }
    assert_met(&verdicts, [0, 10, 11, 12]);
}

#[test]
fn the_quick_look_for_faults_agrees_with_the_plain_one() {
    let mut random = Random::from_seed(13);
    let mut counts = [0; 2];
    for turn in 0..12_000 {
        let mut shape = [SMALL, MERGING, LARGE][turn % 3];
        shape.slips = 6;
        let table = encode(&program(&mut random, &shape));
        for n in 1..=7 {
            let number = verdict(&table, n, WORKSPACE);
            assert_eq!(plain_verdict(&table, n, WORKSPACE), number);
            counts[0] += usize::from(number == 0);
            counts[1] += usize::from(number == 12);
        }
    }
    println!("accepted {}, faults {}", counts[0], counts[1]);
    assert!(counts.iter().all(|&count| count > 10_000));
}

#[test]
fn random_bytes_have_an_answer() {
    let mut random = Random::from_seed(14);
    for _ in 0..20_000 {
        let length = random.below(80);
        let mut bytes: Vec<u8> = (0..length).map(|_| random.byte() % 16).collect();
        if let Some(edition) = bytes.first_mut() {
            *edition = 1;
        }
        ask(&bytes, 3, &mut Verdicts::new());
        assert!(listing(&bytes).ends_with(b"\n"));
        if let Ok(read) = read_circuit(&bytes) {
            assert_eq!(circuit_bytes(&read), bytes);
        }
    }
}

#[test]
fn random_circuits_are_read_and_written_back() {
    let mut random = Random::from_seed(15);
    for _ in 0..3_000 {
        let n = 1 + random.below(32) as u8;
        let ancillas = random.below(256 - usize::from(n)) as u8;
        let gates = random.below(30);
        let bytes = circuit(&mut random, n, ancillas, gates);
        let read = read_circuit(&bytes).unwrap();
        assert_eq!((read.n, read.ancillas), (n, ancillas));
        assert_eq!(read.gates.len(), gates);
        assert_eq!(circuit_bytes(&read), bytes);
        let word = random.word() & ((1 << n) - 1);
        let block = circuit_run(&bytes, word).unwrap();
        let mut past_the_last = (1..=255).skip(usize::from(n + ancillas));
        assert!(past_the_last.all(|wire| !block.holds(wire)));
        // Every gate undoes itself, so the gates and their reverse do nothing.
        let mut undone = read.clone();
        undone.gates.extend(read.gates.into_iter().rev());
        assert_eq!(undone.run(word).unwrap().wires[..8], word.to_le_bytes());
    }
}

#[test]
fn damaged_circuits_have_an_answer() {
    let mut random = Random::from_seed(16);
    let mut well_formed = 0;
    let mut read_back = |bytes: &[u8]| match read_circuit(bytes) {
        Ok(read) => {
            assert_eq!(circuit_bytes(&read), bytes);
            assert_eq!(circuit_run(bytes, 1 << 32), Err(13));
            well_formed += 1;
        }
        Err(refusal) => {
            assert_eq!(refusal, 14);
            assert_eq!(circuit_run(bytes, 1 << 32), Err(14));
        }
    };
    let pairs = compile(PAIRS, 5, ROOM, WORKSPACE).unwrap();
    single_changes(&pairs).for_each(|changed| read_back(&changed));
    for _ in 0..10_000 {
        let whole = circuit(&mut random, 4, 6, 8);
        read_back(&damaged(&mut random, &whole));
    }
    println!("well formed {well_formed}");
    assert!(well_formed > 1_000);
    for truncated in truncations(&pairs) {
        assert_eq!(read_circuit(&truncated).err(), Some(14));
    }
}
