//! The swaps that carry a later call's list onto the first one's: tables whose
//! calls leave long lists that differ, compiled beside the second interpreter,
//! their swaps beside the lists, their circuits' runs beside the tables' runs.
//! Every room and workspace is lent dirty and looked at afterwards. The random
//! test counts the circuits and the later calls of the classes that it is meant
//! to reach, so that it cannot run empty.

mod calls;
mod compiled;
mod counts;
mod later_calls;
mod lent;
mod room;
mod steps;
mod words;

use compiled::{assert_read_back, end_alike, Both};
use counts::{add, assert_reached, count, halves, Counts};
use foq_generator::emissions::{merged_lists, spread};
use foq_generator::merged_lists::program_of_merged_lists;
use foq_generator::tree::{case, choose, encode, longer_than, not, procedure, Number, Statement};
use foq_generator::Random;
use foq_reference::{circuit_bytes, read_circuit, read_table, Action, Control, Gate};
use later_calls::{later_calls, LaterCall, Swap};
use std::collections::BTreeMap;
use words::{every_word, sampled};
use Number::{Constant, LeftPlus, SizePlus};

impl Both {
    /// The swaps of an accepted table, entry by entry, which are those that its
    /// lists ask for. Its circuit ends as it does, from some words.
    fn entries(&mut self, table: &[u8], n: u32) -> Vec<Entry> {
        let circuit = self.circuit(table, n).unwrap();
        let words = sampled(&mut Random::from_seed(114), n, 20);
        end_alike(table, n, &circuit, words);
        let entries = entries(&read_circuit(&circuit).unwrap().gates, n as u8);
        assert_as_listed(&entries, &later_calls_of(table, n));
        entries
    }
}

/// The swaps of an entry in their order, each with the lower wire first.
type Entry = Vec<(u8, u8)>;

/// The entries with swaps: swaps one after the other under one ancilla, before
/// a left part and, in reverse, behind the right part.
fn entries(gates: &[Gate], n: u8) -> Vec<Entry> {
    let rows = gates.chunk_by(goes_on).filter(|row| row[0].is_swap());
    rows.map(|row| entry(row, n)).collect()
}

/// Whether two gates are swaps of one entry. Where no gate stands between an
/// entry and its reverse, the same swap stands there twice.
fn goes_on(one: &Gate, next: &Gate) -> bool {
    let swaps = one.is_swap() && next.is_swap();
    swaps && one.controls == next.controls && one.action != next.action
}

/// An entry of these gates. They are under an ancilla alone, on data wires.
fn entry(gates: &[Gate], n: u8) -> Entry {
    let swaps = gates.iter().map(|gate| {
        let [Control { wire, asks: true }] = gate.controls[..] else {
            panic!("{gate:?}");
        };
        let Action::Swap { lower, upper } = gate.action else {
            panic!("{gate:?}");
        };
        assert!(wire > n && upper <= n, "{gate:?}");
        (lower, upper)
    });
    swaps.collect()
}

/// The later calls of an accepted table.
fn later_calls_of(table: &[u8], n: u32) -> Vec<LaterCall> {
    later_calls(&read_table(table).unwrap(), n as u8)
}

/// The wires of the swaps that are made.
fn wires(swaps: &[Option<Swap>]) -> Entry {
    swaps.iter().flatten().map(|swap| swap.wires()).collect()
}

/// Asserts that the entries are those of the later calls: each stands there once
/// in its order, and once in reverse.
fn assert_as_listed(entries: &[Entry], calls: &[LaterCall]) {
    let there = calls.iter().map(|call| wires(&call.swaps()));
    let mut listed: Vec<Entry> = there.filter(|swaps| !swaps.is_empty()).collect();
    let mut back = listed.clone();
    back.iter_mut().for_each(|swaps| swaps.reverse());
    listed.append(&mut back);
    let mut entries = entries.to_vec();
    listed.sort_unstable();
    entries.sort_unstable();
    assert!(entries == listed);
}

/// A procedure that on lists of this length and longer ones calls itself from
/// the branches of qcases on positions 1 and on, once for each of these rows of
/// removals, and on shorter lists flips its last qubit. Each call also removes
/// the qubits of the qcases, before the others.
fn calling(length: i16, rows: &[&[Number]]) -> Vec<u8> {
    let cases = rows.len().ilog2() as usize;
    let calls = rows.iter().map(|row| {
        let removals = [&vec![Constant(1); cases], *row].concat();
        Statement::Call(removals, 1)
    });
    let split = spread(1, &Vec::from_iter(calls));
    let last = Statement::Not(vec![], SizePlus(0));
    procedure(choose(longer_than(length - 1), split, last))
}

/// The entries as they stand in a circuit of one shared body: these, and these
/// in reverse.
fn there_and_back(entries: &[&[(u8, u8)]]) -> Vec<Entry> {
    let there = entries.iter().map(|swaps| swaps.to_vec());
    let back = entries.iter().rev();
    let back = back.map(|swaps| swaps.iter().rev().copied().collect());
    there.chain(back).collect()
}

#[test]
fn few_qubits_are_swapped_as_worked_out_by_hand() {
    let mut both = Both::new();
    let [first, second, third, last] = [Constant(1), Constant(2), Constant(3), LeftPlus(0)];
    for (n, rows, swaps) in [
        // Document 01: [2, 4] onto [3, 4].
        (4, &[&[first][..], &[second]][..], &[&[(2, 3)][..]][..]),
        // The other way round, [3, 4] onto [2, 4].
        (4, &[&[second], &[first]], &[&[(2, 3)]]),
        // [3, 4] onto [2, 3]: each qubit is on its own wire when it is moved.
        (4, &[&[last], &[first]], &[&[(2, 3), (3, 4)]]),
        // [2, 3] onto [3, 4]: 3 is pushed to wire 2 before it is moved.
        (4, &[&[first], &[last]], &[&[(2, 3), (2, 4)]]),
        // [2, 4, 5] onto [3, 4, 6]: none for 4, which is where it should be.
        (6, &[&[first, third], &[second, last]], &[&[(2, 3), (5, 6)]]),
        // [2, 3, 4] onto [4, 5, 6]: 2 to wire 4, 3 to wire 5, and 4, which was
        // pushed to wire 2, from there to wire 6.
        (
            6,
            &[&[first, first], &[last, last]],
            &[&[(2, 4), (3, 5), (2, 6)]],
        ),
        // [4, 5, 6] twice and [3, 5, 6] onto [3, 4, 5]: each starts afresh.
        (
            6,
            &[&[last], &[first], &[first], &[second]],
            &[
                &[(3, 4), (4, 5), (5, 6)],
                &[(3, 4), (4, 5), (5, 6)],
                &[(4, 5), (5, 6)],
            ],
        ),
        // [3, 4, 5] twice and [3, 4, 6] onto [4, 5, 6].
        (
            6,
            &[&[first], &[last], &[last], &[third]],
            &[
                &[(3, 4), (3, 5), (3, 6)],
                &[(3, 4), (3, 5), (3, 6)],
                &[(3, 4), (3, 5)],
            ],
        ),
    ] {
        let table = calling(n as i16, rows);
        assert_eq!(both.entries(&table, n), there_and_back(swaps));
        let circuit = both.circuit(&table, n).unwrap();
        end_alike(&table, n, &circuit, every_word(n));
    }
}

/// A procedure with a self call in each branch of a qcase on position 16, of
/// which each removes one position, on lists of 32. On shorter ones it flips
/// this position.
fn beside_the_middle(zero: Number, one: Number, flipped: i16) -> Vec<u8> {
    let [zero, one] = [zero, one].map(|removed| Statement::Call(vec![removed], 1));
    procedure(choose(longer_than(31), case(16, zero, one), not(flipped)))
}

#[test]
fn lists_of_31_need_a_swap_for_every_k() {
    let mut both = Both::new();
    let (first, last) = (Constant(1), SizePlus(0));
    // 2 to 32 onto 1 to 31: each qubit is on its own wire when it is moved.
    let down: Entry = (1..32).map(|wire| (wire, wire + 1)).collect();
    // 1 to 31 onto 2 to 32: all but qubit 1 are on wire 1 when they are moved.
    let up: Entry = (2..33).map(|wire| (1, wire)).collect();
    for (zero, one, swaps) in [(last, first, &down), (first, last, &up)] {
        // Qubit 16 is closed: position 16 or 15 of what is left.
        for flipped in (1..15).chain(17..32) {
            let table = beside_the_middle(zero, one, flipped);
            let entries = both.entries(&table, 32);
            assert_eq!(entries, there_and_back(&[swaps]));
            assert!(entries.iter().all(|swaps| swaps.len() == 31));
            let circuit = both.circuit(&table, 32).unwrap();
            for (word, removed) in [(0, zero), (1 << 15, one)] {
                let qubit = flipped + i16::from(removed == first);
                let end = foq::circuit_run(&circuit, word).unwrap().bits;
                let expected = (word ^ 1 << (qubit - 1)).to_le_bytes();
                assert_eq!(end[..8], expected);
            }
        }
        for flipped in [15, 16] {
            let table = beside_the_middle(zero, one, flipped);
            assert_eq!(both.circuit(&table, 32), Err(12));
        }
    }
}

#[test]
fn equal_lists_need_no_swap() {
    let mut both = Both::new();
    let [one, two, three] = [1, 2, 3].map(Constant);
    let from_the_front = |count| vec![one; count];
    let backward = |count: i16| (1..=count).rev().map(Constant).collect::<Vec<Number>>();
    for (zero, other) in [
        (vec![one], vec![one]),
        (vec![SizePlus(-1)], vec![LeftPlus(0)]),
        // The same qubits in another order.
        (vec![one, two], vec![three, one]),
        (vec![one, one, one], vec![three, two, one]),
        (from_the_front(7), backward(7)),
        (vec![LeftPlus(0); 7], (-6..=0).map(LeftPlus).collect()),
        (vec![one, LeftPlus(0)], vec![LeftPlus(0), one]),
        (
            vec![one, LeftPlus(0), two, LeftPlus(-1)],
            vec![LeftPlus(-2), LeftPlus(0), three, one],
        ),
    ] {
        let least = zero.len() as i16 + 3;
        let table = calling(least, &[&zero, &other]);
        for n in 1..=32 {
            assert_eq!(both.entries(&table, n), Vec::<Entry>::new());
            let calls = later_calls_of(&table, n);
            assert_eq!(calls.is_empty(), n < least as u32);
            assert!(calls.iter().all(|call| call.first == call.later));
        }
    }
}

#[test]
fn the_table_that_is_mostly_swaps_has_those_of_its_lists() {
    let mut both = Both::new();
    for n in 1..=32 {
        let entries = both.entries(&merged_lists(), n);
        let swaps: usize = entries.iter().map(Vec::len).sum();
        // Each body calls 32 times with lists of six less, and each later call
        // has a swap for every k.
        let bodies = (6..=n as usize).rev().step_by(6);
        assert_eq!(swaps, bodies.map(|list| 2 * 31 * (list - 6)).sum());
        if n == 32 {
            assert_eq!(swaps, 4_340);
        }
    }
}

/// What was seen of random tables.
#[derive(Default)]
struct Seen {
    /// The tables of each class.
    tables: Counts,
    /// The later calls of each class.
    calls: Counts,
    /// Compile's numbers, 0 where there is a circuit.
    numbers: Counts<u32>,
    /// The circuits by their most swaps in one entry.
    longest: Counts<usize>,
    /// The circuits by the greatest distance of a swap.
    farthest: Counts<u8>,
}

impl Seen {
    /// Counts a circuit by its entries.
    fn count_entries(&mut self, entries: &[Entry]) {
        let swaps: usize = entries.iter().map(Vec::len).sum();
        let longest = entries.iter().map(Vec::len).max().unwrap_or(0);
        let distances = entries.iter().flatten().map(|(lower, upper)| upper - lower);
        count(&mut self.longest, longest, true);
        count(&mut self.farthest, distances.max().unwrap_or(0), true);
        let tables = &mut self.tables;
        count(tables, "no swap", swaps == 0);
        count(tables, "1 to 99 swaps", (1..100).contains(&swaps));
        count(tables, "100 to 999 swaps", (100..1_000).contains(&swaps));
        count(tables, "1,000 swaps or more", swaps >= 1_000);
        *tables.entry("swaps in all").or_default() += swaps;
    }

    /// Counts a later call by its swaps.
    fn count_call(&mut self, call: &LaterCall) {
        let swaps = call.swaps();
        let made = |swap: &Option<Swap>| swap.is_some();
        let first = swaps.iter().position(made).unwrap_or(0);
        let last = swaps.iter().rposition(made).unwrap_or(0);
        let pushed = |swap: &&Swap| swap.from != swap.qubit;
        let again = swaps.iter().flatten().filter(pushed).count();
        let calls = &mut self.calls;
        count(calls, "all", true);
        count(calls, "equal lists", call.first == call.later);
        let (every, long) = (swaps.iter().all(made), swaps.len() >= 16);
        count(calls, "a swap for every k", every);
        count(calls, "a swap for each of 16 k or more", every && long);
        let left_out = swaps[first..=last].iter().any(|swap| swap.is_none());
        count(calls, "none for a k between", first < last && left_out);
        count(calls, "a qubit pushed away before", again > 0);
        count(calls, "ten qubits pushed away before", again >= 10);
    }

    /// Asserts that there were enough tables and later calls of each sort.
    fn assert_enough(&self) {
        let tables = [
            ("no swap", 1_000),
            ("1 to 99 swaps", 2_000),
            ("100 to 999 swaps", 3_500),
            ("1,000 swaps or more", 1_200),
            ("swaps in all", 4_000_000),
            ("branches that meet", 8_500),
            ("mutual recursion", 2_000),
            ("bodies of one length", 2_000),
            ("not in the order called", 1_500),
            ("calls inside calls", 900),
            ("changes a word", 9_000),
            ("runs", 35_000),
        ];
        assert_reached(&self.tables, &tables);
        let calls = [
            ("all", 500_000),
            ("equal lists", 150_000),
            ("a swap for every k", 100_000),
            ("a swap for each of 16 k or more", 15_000),
            ("none for a k between", 40_000),
            ("a qubit pushed away before", 120_000),
            ("ten qubits pushed away before", 20_000),
        ];
        assert_reached(&self.calls, &calls);
        let numbers = [(0, 9_000), (12, 80), (22, 200), (23, 5)];
        assert_reached(&self.numbers, &numbers);
        let most_swaps: Vec<(usize, usize)> = (0..=25).map(|swaps| (swaps, 80)).collect();
        assert_reached(&self.longest, &most_swaps);
        let distances: Vec<(u8, usize)> = (0..=28).map(|wires| (wires, 50)).collect();
        assert_reached(&self.farthest, &distances);
    }

    /// Adds what was seen of other tables.
    fn add(&mut self, others: Seen) {
        add(&mut self.tables, others.tables);
        add(&mut self.calls, others.calls);
        add(&mut self.numbers, others.numbers);
        add(&mut self.longest, others.longest);
        add(&mut self.farthest, others.farthest);
    }
}

/// A number of qubits, mostly 8 or more.
fn qubits(random: &mut Random) -> u32 {
    let least = if random.chance(5) { 1 } else { 8 };
    least + random.below(33 - least as usize) as u32
}

/// Compares so many random tables.
fn compare_tables(seed: u64, tables: usize) -> Seen {
    let mut both = Both::new();
    let mut random = Random::from_seed(seed);
    let mut seen = Seen::default();
    for _ in 0..tables {
        let n = qubits(&mut random);
        let table = encode(&program_of_merged_lists(&mut random, n));
        let Some(circuit) = both.counted(&table, n, &mut seen.numbers) else {
            continue;
        };
        let entries = entries(&read_circuit(&circuit).unwrap().gates, n as u8);
        let calls = later_calls_of(&table, n);
        assert_as_listed(&entries, &calls);
        seen.count_entries(&entries);
        calls.iter().for_each(|call| seen.count_call(call));
        assert_read_back(&table, n, &circuit, &mut seen.tables);
        let words = sampled(&mut random, n, 2);
        let (changed, runs) = end_alike(&table, n, &circuit, words);
        count(&mut seen.tables, "changes a word", changed);
        *seen.tables.entry("runs").or_default() += runs;
    }
    seen
}

#[test]
fn random_tables_swap_alike() {
    let mut seen = Seen::default();
    for half in halves([111, 112], |seed| compare_tables(seed, 5_000)) {
        seen.add(half);
    }
    seen.assert_enough();
}

/// The circuit that would come from a lookup which no swap updates: each swap
/// takes its qubit from its own wire. There are as many swaps as before, at the
/// same places: a qubit that was pushed away never belongs on its own wire.
fn without_updates(circuit: &[u8], calls: &[LaterCall]) -> Vec<u8> {
    let mut instead = BTreeMap::new();
    for call in calls {
        let mut swaps = call.swaps();
        let mut entry = wires(&swaps);
        for swap in swaps.iter_mut().flatten() {
            swap.from = swap.qubit;
        }
        let mut wrong = wires(&swaps);
        instead.insert(entry.clone(), wrong.clone());
        entry.reverse();
        wrong.reverse();
        instead.insert(entry, wrong);
    }
    let mut changed = read_circuit(circuit).unwrap();
    let rows = changed.gates.chunk_by_mut(goes_on);
    for row in rows.filter(|row| row[0].is_swap()) {
        let wrong = &instead[&entry(row, changed.n)];
        for (gate, &(lower, upper)) in row.iter_mut().zip(wrong) {
            gate.action = Action::Swap { lower, upper };
        }
    }
    circuit_bytes(&changed)
}

#[test]
fn a_lookup_that_no_swap_updates_would_be_noticed() {
    let mut both = Both::new();
    let mut random = Random::from_seed(113);
    let mut counts = Counts::new();
    for _ in 0..500 {
        let n = 8 + random.below(3) as u32;
        let table = encode(&program_of_merged_lists(&mut random, n));
        let Ok(circuit) = both.circuit(&table, n) else {
            continue;
        };
        let wrong = without_updates(&circuit, &later_calls_of(&table, n));
        if wrong == circuit {
            continue;
        }
        assert_eq!(foq::circuit_read(&wrong), foq::circuit_read(&circuit));
        let differ = |word| foq::circuit_run(&wrong, word) != foq::circuit_run(&circuit, word);
        let from_every = every_word(n).any(differ);
        let from_four = sampled(&mut random, n, 2).into_iter().any(differ);
        count(&mut counts, "other bytes", true);
        count(&mut counts, "another end", from_every);
        count(&mut counts, "another end from four words", from_four);
    }
    let least = [
        ("other bytes", 80),
        ("another end", 70),
        ("another end from four words", 40),
    ];
    assert_reached(&counts, &least);
}
