//! Compile beside the second interpreter's: number, length and every byte of
//! the room. Then the circuits are run beside their tables. Every room and
//! workspace is lent dirty: a workspace must come back as zeros, a room with
//! the circuit in front and its rest as it was. Each test counts the tables of
//! the classes that it is meant to reach, so that it cannot run empty.

mod compiled;
mod counts;
mod lent;
mod refusals;
mod room;
mod small_stack;
mod steps;
mod words;

use compiled::{assert_read_back, compile_of_both, end_alike};
use counts::{assert_reached, count, Counts};
use foq_generator::damage::damaged;
use foq_generator::emissions::{
    deepest_emission, filled, merged_lists, ring, slowest_compile, FILLED_NEXT, SLOWEST_QUBITS,
};
use foq_generator::programs::{program, wild_program, Shape, LARGE, MERGING, SMALL};
use foq_generator::published::{chained_substring, full_adder, palindromes};
use foq_generator::tables::{
    deepest, every_kind, leaning_left, leaning_right, nested_classes, one_in_each_branch,
    sixteen_in_turn, two_in_turn,
};
use foq_generator::tree::{call, encode, table, Statement};
use foq_generator::{Random, PAIRS};
use foq_reference::{compile, LONGEST_CIRCUIT, SHORTEST_WORKSPACE};
use lent::{Workspace, LENGTHS};
use refusals::tables_in_order;
use room::Room;
use small_stack::on_that_stack;
use std::time::{Duration, Instant};
use words::{every_word, on_few_qubits, on_many_qubits, sampled};

/// Rooms longer than any circuit.
const LONG_ROOMS: [usize; 3] = [65_537, 70_000, 131_072];

/// Asks the product and the second interpreter, and counts the lengths of the
/// workspaces that are lent.
struct Both {
    workspace: Workspace,
    room: Room,
    workspaces: Counts<usize>,
}

impl Both {
    fn new() -> Both {
        Both {
            workspace: Workspace::up_to(40_000),
            room: Room::up_to(131_072),
            workspaces: Counts::new(),
        }
    }

    /// The circuit or the refusal, with a room and a workspace of these
    /// lengths.
    fn compile_with(
        &mut self,
        table: &[u8],
        n: u32,
        room: usize,
        workspace: usize,
    ) -> Result<Vec<u8>, u32> {
        count(&mut self.workspaces, workspace, true);
        let lent = (&mut self.room, &mut self.workspace);
        compile_of_both(lent, table, n, (room, workspace))
    }

    /// The same with a workspace that is just long enough.
    fn compile(&mut self, table: &[u8], n: u32, room: usize) -> Result<Vec<u8>, u32> {
        self.compile_with(table, n, room, SHORTEST_WORKSPACE)
    }

    /// The same with a room that is always long enough.
    fn circuit(&mut self, table: &[u8], n: u32) -> Result<Vec<u8>, u32> {
        self.compile(table, n, LONGEST_CIRCUIT)
    }

    /// Compiles a table in several rooms, with several workspaces. Counts it
    /// and, where its circuit fits the longest room, the classes that it shows.
    fn compile_in_rooms(&mut self, random: &mut Random, table: &[u8], n: u32, counts: &mut Counts) {
        match self.circuit(table, n) {
            Ok(circuit) => {
                count(counts, "accepted", true);
                assert_read_back(table, n, &circuit, counts);
                self.compile_about(random, table, n, circuit.len());
            }
            Err(number) => {
                count(counts, "22", number == 22);
                count(counts, "23", number == 23);
                count(counts, "refused", number < 22);
                self.refuse_in_rooms(random, table, n, number);
            }
        }
    }

    /// Compiles a table whose circuit has this length in rooms about it.
    fn compile_about(&mut self, random: &mut Random, table: &[u8], n: u32, length: usize) {
        let enough = random.pick(&[SHORTEST_WORKSPACE, 40_000]).unwrap();
        for room in [length, length + 1 + random.below(200)] {
            assert!(self.compile_with(table, n, room, enough).is_ok());
        }
        for room in [length - 1, random.below(length), random.below(length)] {
            assert_eq!(self.compile(table, n, room), Err(23));
        }
        let short = random.pick(&[0, 1, 32_767]).unwrap();
        assert_eq!(self.compile_with(table, n, length, short), Err(21));
    }

    /// Asks for a table with this refusal in shorter and longer rooms.
    fn refuse_in_rooms(&mut self, random: &mut Random, table: &[u8], n: u32, number: u32) {
        let shorter = random.below(LONGEST_CIRCUIT);
        let workspace = random.pick(&LENGTHS).unwrap();
        let _ = self.compile_with(table, n, shorter, workspace);
        let longer = random.pick(&LONG_ROOMS).unwrap();
        assert_eq!(self.compile(table, n, longer), Err(number));
    }

    /// Runs a table and its circuit from each word: the data wires hold the
    /// end word, and every other bit is zero. Counts the table, where it is
    /// accepted, and the classes that it shows.
    fn run_circuit(
        &mut self,
        table: &[u8],
        n: u32,
        words: impl IntoIterator<Item = u64>,
        counts: &mut Counts,
    ) {
        let Ok(circuit) = self.circuit(table, n) else {
            count(counts, "refused", true);
            return;
        };
        let (changed, runs) = end_alike(table, n, &circuit, words);
        count(counts, "accepted", true);
        count(counts, "changes a word", changed);
        *counts.entry("runs").or_default() += runs;
        assert_read_back(table, n, &circuit, counts);
    }
}

/// A number of qubits, mostly small.
fn qubits(random: &mut Random) -> u32 {
    let most = random.pick(&[6, 6, 6, 10, 32]).unwrap();
    1 + random.below(most) as u32
}

/// Compiles programs of a shape. Asserts that every number of qubits is among
/// them and that workspaces of every length were lent.
fn compile_programs(seed: u64, shape: &Shape, tables: usize) -> Counts {
    let mut both = Both::new();
    let mut random = Random::from_seed(seed);
    let mut counts = Counts::new();
    let mut numbers = Counts::new();
    for _ in 0..tables {
        let table = encode(&program(&mut random, shape));
        let n = qubits(&mut random);
        both.compile_in_rooms(&mut random, &table, n, &mut counts);
        count(&mut numbers, n, true);
    }
    let least: Vec<(u32, usize)> = (1..=32).map(|n| (n, tables / 250)).collect();
    assert_reached(&numbers, &least);
    assert_reached(
        &both.workspaces,
        &LENGTHS.map(|length| (length, tables / 5)),
    );
    counts
}

#[test]
fn small_programs_compile_alike() {
    let counts = compile_programs(81, &SMALL, 24_000);
    let least = [
        ("accepted", 22_500),
        ("calls", 17_000),
        ("mutual recursion", 2_000),
        ("branches that meet", 3_000),
        ("swaps", 500),
        ("calls inside calls", 3_000),
        ("refused", 300),
        ("23", 1),
    ];
    assert_reached(&counts, &least);
}

#[test]
fn merging_programs_compile_alike() {
    let counts = compile_programs(82, &MERGING, 22_000);
    let least = [
        ("accepted", 21_500),
        ("calls", 17_000),
        ("mutual recursion", 2_000),
        ("branches that meet", 6_000),
        ("swaps", 2_000),
        ("calls inside calls", 1_800),
    ];
    assert_reached(&counts, &least);
}

#[test]
fn programs_of_many_procedures_compile_alike() {
    let counts = compile_programs(83, &LARGE, 8_000);
    let least = [
        ("accepted", 7_500),
        ("calls", 5_000),
        ("mutual recursion", 500),
        ("branches that meet", 500),
        ("swaps", 50),
        ("calls inside calls", 1_500),
        ("23", 5),
    ];
    assert_reached(&counts, &least);
}

#[test]
fn programs_too_large_are_refused_alike() {
    let mut both = Both::new();
    let mut random = Random::from_seed(91);
    let mut counts = Counts::new();
    let shape = Shape {
        procedures: 8,
        records: 25,
        cases: 80,
        recurs: 95,
        slips: 0,
    };
    for _ in 0..300 {
        let table = encode(&program(&mut random, &shape));
        both.compile_in_rooms(&mut random, &table, 32, &mut counts);
    }
    let least = [("accepted", 150), ("22", 30), ("23", 15)];
    assert_reached(&counts, &least);
}

#[test]
fn worked_programs_compile_as_printed() {
    let mut both = Both::new();
    let flip_4 = [0, 4];
    let flip_5 = [3, 5, 1, 4, 2, 1, 2];
    let flip_6 = [1, 6, 3, 1, 2, 4];
    let enter = [1, 5, 1, 6];
    let gates: [&[u8]; 9] = [
        &flip_4,
        &flip_5,
        &flip_6,
        &enter,
        &[1, 3, 1, 5],
        &enter,
        &flip_6,
        &flip_5,
        &flip_4,
    ];
    let printed = [&[1, 3, 3, 9, 0, 0, 0], gates.concat().as_slice()].concat();
    assert_eq!(both.circuit(PAIRS, 3), Ok(printed.clone()));

    let (mut room, mut workspace) = (vec![1; 60], vec![1; SHORTEST_WORKSPACE]);
    let circuit = foq::compile(PAIRS, 3, &mut room, &mut workspace);
    assert_eq!(circuit, Ok(printed.as_slice()));
    let (mut short, mut workspace) = (vec![1; 48], vec![1; SHORTEST_WORKSPACE]);
    let circuit = foq::compile(PAIRS, 3, &mut short, &mut workspace);
    assert_eq!(circuit, Err(foq::Refusal::NO_ROOM));
}

#[test]
fn a_circuit_without_gates_needs_seven_bytes() {
    let mut both = Both::new();
    for n in [1, 3, 32] {
        for room in 0..=8 {
            let circuit = both.compile(&[1, 0, 0, 0], n, room);
            if room < 7 {
                assert_eq!(circuit, Err(23));
            } else {
                assert_eq!(circuit, Ok(vec![1, n as u8, 0, 0, 0, 0, 0]));
            }
        }
    }
}

#[test]
fn every_room_is_answered_alike() {
    let mut both = Both::new();
    let mut numbers = Counts::<u32>::new();
    for (table, n) in [
        (PAIRS.to_vec(), 3),
        (PAIRS.to_vec(), 32),
        (every_kind(), 8),
        (one_in_each_branch(), 5),
        (two_in_turn(), 32),
        (nested_classes(3), 4),
        (merged_lists(), 8),
        (palindromes(), 32),
        (chained_substring(), 5),
        (full_adder(), 16),
    ] {
        let length = both.circuit(&table, n).unwrap().len();
        for room in 0..length + 3 {
            let number = both.compile(&table, n, room).err().unwrap_or(0);
            assert_eq!(number, if room < length { 23 } else { 0 });
            count(&mut numbers, number, true);
        }
    }
    assert_reached(&numbers, &[(0, 30), (23, 3_000)]);
}

#[test]
fn the_first_refusal_in_the_order_is_given() {
    let mut both = Both::new();
    let mut numbers = Counts::<u32>::new();
    // The last of the tables is accepted and has a circuit of nine bytes.
    for (of_table, table) in tables_in_order() {
        for n in [3, 0, 33, u32::MAX] {
            for workspace in LENGTHS {
                for room in [0, 6, 7, 8, 9, 10] {
                    let refusals = [
                        (9, n != 3),
                        (of_table, of_table != 0),
                        (21, workspace < SHORTEST_WORKSPACE),
                        (23, room < 9),
                    ];
                    let first = refusals.into_iter().find(|(_, applies)| *applies);
                    let number = first.map_or(0, |(number, _)| number);
                    let given = both.compile_with(&table, n, room, workspace);
                    assert_eq!(given.err().unwrap_or(0), number, "{table:02x?}");
                    count(&mut numbers, number, true);
                }
            }
        }
    }
    let all = [0, 1, 2, 3, 4, 5, 6, 7, 8, 9, 10, 11, 12, 21, 23];
    assert_reached(&numbers, &all.map(|number| (number, 4)));
}

#[test]
fn refused_tables_are_refused_alike() {
    let mut both = Both::new();
    let mut random = Random::from_seed(84);
    let mut numbers = Counts::<u32>::new();
    for _ in 0..8_000 {
        let whole = encode(&program(&mut random, &SMALL));
        for table in [
            damaged(&mut random, &whole),
            encode(&wild_program(&mut random, &SMALL)),
        ] {
            let n = 1 + random.below(6) as u32;
            let room = random.below(100);
            let workspace = random.pick(&LENGTHS).unwrap();
            let given = both.compile_with(&table, n, room, workspace);
            count(&mut numbers, given.err().unwrap_or(0), true);
        }
    }
    let least = [
        (0, 500),
        (1, 400),
        (4, 600),
        (5, 600),
        (6, 600),
        (10, 3_000),
        (11, 150),
        (12, 1_500),
        (21, 500),
        (23, 100),
    ];
    assert_reached(&numbers, &least);
}

/// A table that on 32 qubits places this many bytes and then takes more wires
/// than there are.
fn wide_behind(bytes: usize) -> Vec<u8> {
    filled(bytes, call(FILLED_NEXT, &[]), &ring(FILLED_NEXT, 4))
}

/// The shortest room in which the second interpreter refuses a table on 32
/// qubits with 22: in a shorter one a gate before that ancilla has no room.
fn shortest_room_for_22(table: &[u8]) -> usize {
    let mut rooms = 0..LONGEST_CIRCUIT;
    while !rooms.is_empty() {
        let room = rooms.start + rooms.len() / 2;
        match compile(table, 32, room, SHORTEST_WORKSPACE) {
            Err(22) => rooms.end = room,
            _ => rooms.start = room + 1,
        }
    }
    rooms.start
}

#[test]
fn a_256th_wire_is_refused_where_the_gates_before_it_have_room() {
    let mut both = Both::new();
    let mut random = Random::from_seed(85);
    for table in [
        sixteen_in_turn(),
        table(call(1, &[]), &ring(1, 4)),
        table(call(1, &[]), &ring(1, 16)),
        deepest_emission(32),
        wide_behind(1_000),
        wide_behind(40_000),
    ] {
        let length = shortest_room_for_22(&table);
        assert!((1_000..LONGEST_CIRCUIT).contains(&length));
        let shorter = [(); 20].map(|()| random.below(length));
        for room in [0, 6, 7, length - 1].into_iter().chain(shorter) {
            assert_eq!(both.compile(&table, 32, room), Err(23));
        }
        let longer = [(); 20].map(|()| length + random.below(LONGEST_CIRCUIT - length));
        let longest = [length, length + 1, LONGEST_CIRCUIT];
        for room in longest.into_iter().chain(longer).chain(LONG_ROOMS) {
            assert_eq!(both.compile(&table, 32, room), Err(22));
            assert_eq!(both.compile_with(&table, 32, room, 32_767), Err(21));
        }
    }
}

#[test]
fn the_last_byte_of_65536_decides_between_22_and_23() {
    let mut both = Both::new();
    let ahead = shortest_room_for_22(&wide_behind(12)) - 12;
    for (length, number) in [(65_535, 22), (65_536, 22), (65_537, 23), (65_538, 23)] {
        let table = wide_behind(length - ahead);
        for room in [LONGEST_CIRCUIT].into_iter().chain(LONG_ROOMS) {
            assert_eq!(both.compile(&table, 32, room), Err(number));
        }
        assert_eq!(both.compile(&table, 32, 65_534), Err(23));
    }
}

#[test]
fn a_circuit_has_at_most_65536_bytes() {
    let mut both = Both::new();
    for length in 65_533..=65_540 {
        let table = filled(length, Statement::Skip, &[]);
        for room in [length - 1, length, LONGEST_CIRCUIT]
            .into_iter()
            .chain(LONG_ROOMS)
        {
            let given = both.compile(&table, 32, room);
            if length <= room.min(LONGEST_CIRCUIT) {
                assert_eq!(given.unwrap().len(), length);
            } else {
                assert_eq!(given, Err(23));
            }
        }
    }
}

#[test]
fn no_byte_past_65536_is_used() {
    let mut both = Both::new();
    for (number, table, n) in [
        (0, vec![1, 0, 0, 0], 1),
        (0, PAIRS.to_vec(), 32),
        (0, merged_lists(), 32),
        (0, filled(LONGEST_CIRCUIT, Statement::Skip, &[]), 32),
        (22, sixteen_in_turn(), 32),
        (23, nested_classes(3), 32),
        (23, chained_substring(), 32),
    ] {
        let longest = both.circuit(&table, n);
        assert_eq!(longest.as_ref().err().copied().unwrap_or(0), number);
        for room in LONG_ROOMS {
            assert_eq!(both.compile(&table, n, room), longest);
        }
    }
}

#[test]
fn an_astronomical_emission_is_refused_at_once() {
    let mut both = Both::new();
    let (mut room, mut workspace) = (vec![1; LONGEST_CIRCUIT], vec![0; SHORTEST_WORKSPACE]);
    for classes in 5..=16 {
        let table = nested_classes(classes);
        assert_eq!(both.circuit(&table, 32), Err(23));
        let times = [(); 5].map(|()| {
            let start = Instant::now();
            let refused = foq::compile(&table, 32, &mut room, &mut workspace);
            assert_eq!(refused, Err(foq::Refusal::NO_ROOM));
            start.elapsed()
        });
        assert!(times.into_iter().min() < Some(Duration::from_millis(100)));
    }
}

#[test]
fn the_deepest_tables_compile_on_the_stack_that_the_header_names() {
    let mut numbers = Counts::<u32>::new();
    for n in [1, 2, 28, 29, 30, 31, 32] {
        for table in [
            deepest(leaning_left),
            deepest(leaning_right),
            deepest_emission(n),
            sixteen_in_turn(),
            nested_classes(16),
            merged_lists(),
        ] {
            let n = n as u32;
            let given = on_that_stack(|| {
                let room = &mut vec![1; LONGEST_CIRCUIT];
                let workspace = &mut vec![1; SHORTEST_WORKSPACE];
                foq::compile(&table, n, room, workspace).map(<[u8]>::to_vec)
            });
            let given = given.map_err(foq::Refusal::number);
            assert_eq!(
                given,
                compile(&table, n, LONGEST_CIRCUIT, SHORTEST_WORKSPACE)
            );
            count(&mut numbers, given.err().unwrap_or(0), true);
        }
    }
    assert_reached(&numbers, &[(0, 25), (22, 5), (23, 5)]);
}

/// Compiles programs of a shape and runs their circuits from every word, each
/// on one of these numbers of qubits in turn.
fn run_programs(seed: u64, shape: &Shape, tables: usize, qubits: &[u32]) -> Counts {
    let mut both = Both::new();
    let mut random = Random::from_seed(seed);
    let mut counts = Counts::new();
    for (table, n) in on_few_qubits(&mut random, shape, tables, qubits) {
        both.run_circuit(&table, n, every_word(n), &mut counts);
    }
    counts
}

#[test]
fn circuits_end_as_runs_do_from_every_word() {
    let counts = run_programs(86, &SMALL, 3_000, &[1, 2, 3, 4, 5, 6]);
    let least = [
        ("accepted", 2_800),
        ("changes a word", 1_400),
        ("calls", 2_000),
        ("mutual recursion", 200),
        ("branches that meet", 300),
        ("calls inside calls", 350),
        ("runs", 55_000),
    ];
    assert_reached(&counts, &least);
}

#[test]
fn merged_circuits_end_as_runs_do_from_every_word() {
    let counts = run_programs(87, &MERGING, 3_000, &[3, 4, 5, 6, 7, 8]);
    let least = [
        ("accepted", 2_900),
        ("changes a word", 1_400),
        ("mutual recursion", 300),
        ("branches that meet", 1_000),
        ("swaps", 300),
        ("runs", 240_000),
    ];
    assert_reached(&counts, &least);
}

#[test]
fn circuits_of_many_procedures_end_as_runs_do_from_every_word() {
    let counts = run_programs(88, &LARGE, 1_500, &[2, 3, 4, 5]);
    let least = [
        ("accepted", 1_400),
        ("changes a word", 700),
        ("mutual recursion", 100),
        ("calls inside calls", 300),
    ];
    assert_reached(&counts, &least);
}

#[test]
fn circuits_on_many_qubits_end_as_runs_do_from_some_words() {
    let mut both = Both::new();
    let mut random = Random::from_seed(89);
    let mut counts = Counts::new();
    for (table, n, words) in on_many_qubits(&mut random, 3_000, 9) {
        both.run_circuit(&table, n, words, &mut counts);
        count(&mut counts, "32 qubits", n == 32);
    }
    let least = [
        ("accepted", 2_700),
        ("changes a word", 1_600),
        ("branches that meet", 900),
        ("swaps", 400),
        ("32 qubits", 80),
    ];
    assert_reached(&counts, &least);
}

#[test]
fn circuits_at_the_limits_end_as_runs_do() {
    let mut both = Both::new();
    let mut random = Random::from_seed(90);
    let mut counts = Counts::new();
    for (table, n) in [
        (PAIRS.to_vec(), 32),
        (every_kind(), 32),
        (merged_lists(), 32),
        (sixteen_in_turn(), 15),
        (nested_classes(16), 4),
        (chained_substring(), 22),
        (full_adder(), 31),
        (deepest(leaning_left), 32),
        (deepest_emission(30), 30),
        (filled(LONGEST_CIRCUIT, Statement::Skip, &[]), 32),
    ] {
        let words = sampled(&mut random, n, 30);
        both.run_circuit(&table, n, words, &mut counts);
    }
    assert_reached(&counts, &[("accepted", 10), ("changes a word", 7)]);
}

#[test]
fn the_slowest_table_compiles_alike() {
    let mut both = Both::new();
    let mut random = Random::from_seed(92);
    let mut counts = Counts::new();
    let table = slowest_compile();
    for n in (10..=17).chain([SLOWEST_QUBITS, SLOWEST_QUBITS + 1]) {
        let words = sampled(&mut random, n, 30);
        both.run_circuit(&table, n, words, &mut counts);
    }
    let least = [("refused", 2), ("accepted", 8), ("calls inside calls", 8)];
    assert_reached(&counts, &least);
}

#[test]
fn the_slowest_table_fills_the_longest_room() {
    let length = |n| {
        let circuit = compile(&slowest_compile(), n, LONGEST_CIRCUIT, SHORTEST_WORKSPACE);
        circuit.map(|circuit| circuit.len())
    };
    assert_eq!(length(SLOWEST_QUBITS), Ok(65_515));
    assert_eq!(length(SLOWEST_QUBITS + 1), Err(23));
}

/// The word that a circuit ends with.
fn end_of(circuit: &[u8], word: u64) -> u64 {
    let block = foq::circuit_run(circuit, word).unwrap();
    u64::from_le_bytes(block.bits[..8].try_into().unwrap())
}

/// The bits of a word from the lowest on, as zeros and ones.
fn digits(word: u64, bits: u32) -> String {
    let digit = |bit| if word >> bit & 1 == 1 { '1' } else { '0' };
    (0..bits).map(digit).collect()
}

/// "00 | 11" again and again.
fn is_of_pairs(digits: &str) -> bool {
    let mut pairs = digits.as_bytes().chunks(2);
    pairs.all(|pair| pair.len() == 2 && pair[0] == pair[1])
}

fn is_palindrome(digits: &str) -> bool {
    digits.chars().eq(digits.chars().rev())
}

fn has_001_and_later_11(digits: &str) -> bool {
    let parts = digits.split_once("001");
    parts.is_some_and(|(_, behind)| behind.contains("11"))
}

/// Whether a program flips the last qubit, by the digits of the others.
type Decides = fn(&str) -> bool;

#[test]
fn published_programs_flip_the_last_qubit_where_their_source_says() {
    let mut both = Both::new();
    let mut counts = Counts::new();
    let programs: [(_, _, Decides); 3] = [
        ("pairs", PAIRS.to_vec(), is_of_pairs),
        ("palindromes", palindromes(), is_palindrome),
        ("substring", chained_substring(), has_001_and_later_11),
    ];
    for (name, table, decides) in programs {
        for n in 1..=10 {
            let circuit = both.circuit(&table, n).unwrap();
            for word in every_word(n) {
                let flips = decides(&digits(word, n - 1));
                let last = u64::from(flips) << (n - 1);
                assert_eq!(end_of(&circuit, word), word ^ last, "{name}, {word:b}");
                count(&mut counts, name, flips);
            }
        }
    }
    let least = [("pairs", 50), ("palindromes", 150), ("substring", 300)];
    assert_reached(&counts, &least);
}

/// Every second bit of a word, from the lowest on.
fn every_second(word: u64, bits: u32) -> u64 {
    (0..bits).map(|bit| (word >> (2 * bit) & 1) << bit).sum()
}

/// Qubits 1 to 2k are k pairs of binary places of a and b, the lowest first.
/// Then come k zeros and the carry, which end as the k + 1 places of the sum,
/// the highest first.
#[test]
fn the_published_adder_adds() {
    let mut both = Both::new();
    for places in 1..=4 {
        let n = 3 * places + 1;
        let circuit = both.circuit(&full_adder(), n).unwrap();
        for (pairs, carry) in (0..1 << (2 * places)).flat_map(|pairs| [(pairs, 0), (pairs, 1)]) {
            let sum = every_second(pairs, places) + every_second(pairs >> 1, places) + carry;
            let backward = sum.reverse_bits() >> (63 - places);
            let start = pairs | carry << (n - 1);
            assert_eq!(end_of(&circuit, start), pairs | backward << (2 * places));
        }
    }
}
