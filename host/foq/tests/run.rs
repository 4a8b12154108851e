//! The run beside the second interpreter's: end words of accepted tables, and
//! the order of the refusals. Every workspace is lent dirty and must come back
//! as zeros. Each test counts the tables of the classes that it is meant to
//! reach, so that it cannot run empty.

mod asked;
mod counts;
mod lent;
mod refusals;
mod small_stack;
mod steps;
mod words;

use asked::run_of_both;
use counts::{assert_reached, count, Counts};
use foq::border::Answer;
use foq_generator::damage::damaged;
use foq_generator::programs::{program, wild_program, Shape, LARGE, MERGING, SMALL};
use foq_generator::tables::{
    closed_through_a_call, deepest, every_kind, leaning_left, leaning_right, nested_classes,
    one_in_each_branch, sixteen_in_turn, two_in_turn,
};
use foq_generator::tree::{encode, table, Statement};
use foq_generator::{Random, PAIRS};
use foq_reference::{emission, read_table, run, LONGEST_CIRCUIT, SHORTEST_WORKSPACE};
use lent::{Workspace, LENGTHS};
use refusals::tables_in_order;
use small_stack::on_that_stack;
use steps::count_steps;
use words::{every_word, on_few_qubits, on_many_qubits, sampled};

/// Asks the product and the second interpreter.
struct Both {
    workspace: Workspace,
}

impl Both {
    fn new() -> Both {
        Both {
            workspace: Workspace::up_to(40_000),
        }
    }

    /// The run with a workspace of this length.
    fn run_with(&mut self, table: &[u8], n: u32, word: u64, length: usize) -> Answer {
        run_of_both(&mut self.workspace, table, n, word, length)
    }

    /// The run with a workspace that is just long enough.
    fn run(&mut self, table: &[u8], n: u32, word: u64) -> Answer {
        self.run_with(table, n, word, SHORTEST_WORKSPACE)
    }

    /// Runs a table from each word. Counts it, where it is accepted, and the
    /// classes that it shows.
    fn run_all(
        &mut self,
        table: &[u8],
        n: u32,
        words: impl IntoIterator<Item = u64>,
        counts: &mut Counts,
    ) {
        let (mut changed, mut runs) = (false, 0);
        for word in words {
            let given = self.run(table, n, word);
            if given.number != 0 {
                count(counts, "refused", true);
                return;
            }
            changed |= given.value != word;
            runs += 1;
        }
        count(counts, "accepted", true);
        count(counts, "changes a word", changed);
        *counts.entry("runs").or_default() += runs;
        let program = read_table(table).unwrap();
        if let Ok(emitted) = emission(&program, n, LONGEST_CIRCUIT) {
            count_steps(&emitted.tally, counts);
        }
    }
}

/// Runs programs of a shape from every word, each on one of these numbers of
/// qubits in turn.
fn run_programs(seed: u64, shape: &Shape, tables: usize, qubits: &[u32]) -> Counts {
    let mut both = Both::new();
    let mut random = Random::from_seed(seed);
    let mut counts = Counts::new();
    for (table, n) in on_few_qubits(&mut random, shape, tables, qubits) {
        both.run_all(&table, n, every_word(n), &mut counts);
    }
    counts
}

#[test]
fn small_programs_run_alike_from_every_word() {
    let counts = run_programs(71, &SMALL, 30_000, &[1, 2, 3, 4, 5, 6]);
    let least = [
        ("accepted", 28_000),
        ("changes a word", 14_000),
        ("calls", 20_000),
        ("mutual recursion", 2_000),
        ("branches that meet", 3_000),
        ("calls inside calls", 3_500),
        ("runs", 550_000),
    ];
    assert_reached(&counts, &least);
}

#[test]
fn merging_programs_run_alike_from_every_word() {
    let counts = run_programs(72, &MERGING, 20_000, &[2, 3, 4, 5, 6]);
    let least = [
        ("accepted", 19_500),
        ("changes a word", 8_000),
        ("calls", 15_000),
        ("mutual recursion", 1_500),
        ("branches that meet", 4_500),
        ("calls inside calls", 1_500),
        ("runs", 450_000),
    ];
    assert_reached(&counts, &least);
}

#[test]
fn some_programs_run_alike_from_every_word_of_up_to_8_qubits() {
    let counts = run_programs(73, &MERGING, 400, &[7, 8]);
    let least = [("accepted", 380), ("changes a word", 180), ("runs", 70_000)];
    assert_reached(&counts, &least);
}

#[test]
fn programs_of_many_procedures_run_alike_from_every_word() {
    let counts = run_programs(74, &LARGE, 4_000, &[1, 2, 3, 4]);
    let least = [
        ("accepted", 3_500),
        ("changes a word", 1_800),
        ("calls", 2_500),
        ("mutual recursion", 300),
        ("calls inside calls", 800),
    ];
    assert_reached(&counts, &least);
}

#[test]
fn programs_on_many_qubits_run_alike_from_some_words() {
    let mut both = Both::new();
    let mut random = Random::from_seed(75);
    let mut counts = Counts::new();
    for (table, n, words) in on_many_qubits(&mut random, 4_000, 7) {
        both.run_all(&table, n, words, &mut counts);
        count(&mut counts, "32 qubits", n == 32);
    }
    let least = [
        ("accepted", 3_500),
        ("changes a word", 2_200),
        ("branches that meet", 1_200),
        ("32 qubits", 100),
    ];
    assert_reached(&counts, &least);
}

#[test]
fn worked_programs_run_as_printed() {
    let mut both = Both::new();
    let given = |value| Answer { number: 0, value };
    for (n, word, end) in [
        (3, 0, 4),
        (3, 1, 1),
        (3, 3, 7),
        (3, 7, 3),
        (1, 0, 1),
        (2, 3, 3),
    ] {
        assert_eq!(both.run(PAIRS, n, word), given(end));
    }
    let refused = Answer {
        number: 13,
        value: 0,
    };
    assert_eq!(both.run(PAIRS, 3, 8), refused);
    assert_eq!(foq::run(PAIRS, 3, 3, &mut vec![1; 32_768]), Ok(7));
    let short = foq::run(PAIRS, 3, 3, &mut vec![1; 32_767]);
    assert_eq!(short, Err(foq::Refusal::SHORT_WORKSPACE));
}

#[test]
fn tables_of_known_shape_run_alike() {
    let mut both = Both::new();
    let mut random = Random::from_seed(76);
    let mut counts = Counts::new();
    let tables = [
        PAIRS.to_vec(),
        every_kind(),
        one_in_each_branch(),
        two_in_turn(),
        nested_classes(1),
        nested_classes(3),
        sixteen_in_turn(),
    ];
    for table in &tables {
        for n in 1..=32 {
            let words = sampled(&mut random, n, 6);
            both.run_all(table, n, words, &mut counts);
        }
        both.run_all(table, 8, every_word(8), &mut counts);
    }
    both.run_all(&nested_classes(5), 10, [0, 1], &mut counts);
    both.run_all(&nested_classes(16), 3, every_word(3), &mut counts);
    both.run_all(&closed_through_a_call(), 1, [0, 1], &mut counts);
    assert_eq!(counts["accepted"], tables.len() * 33 + 3);
}

#[test]
fn the_first_refusal_in_the_order_is_given() {
    let mut both = Both::new();
    let mut numbers = Counts::<u32>::new();
    for (of_table, table) in tables_in_order() {
        for n in [3, 0, 33, u32::MAX] {
            for word in [5, 8, 1 << 32, 1 << 63] {
                for length in LENGTHS {
                    let refusals = [
                        (9, n != 3),
                        (of_table, of_table != 0),
                        (13, word != 5),
                        (21, length < SHORTEST_WORKSPACE),
                    ];
                    let first = refusals.into_iter().find(|(_, applies)| *applies);
                    let number = first.map_or(0, |(number, _)| number);
                    let value = if number == 0 { 4 } else { 0 };
                    let given = both.run_with(&table, n, word, length);
                    assert_eq!(given, Answer { number, value }, "{table:02x?}");
                    count(&mut numbers, number, true);
                }
            }
        }
    }
    let least = [0, 1, 2, 3, 4, 5, 6, 7, 8, 9, 10, 11, 12, 13, 21].map(|number| (number, 2));
    assert_reached(&numbers, &least);
}

#[test]
fn refused_tables_are_refused_alike() {
    let mut both = Both::new();
    let mut random = Random::from_seed(77);
    let mut numbers = Counts::<u32>::new();
    for _ in 0..6_000 {
        let whole = encode(&program(&mut random, &SMALL));
        for table in [
            damaged(&mut random, &whole),
            encode(&wild_program(&mut random, &SMALL)),
        ] {
            let n = 1 + random.below(6) as u32;
            let word = random.word() % (1 << (n + 1));
            let length = random.pick(&LENGTHS).unwrap();
            let given = both.run_with(&table, n, word, length);
            count(&mut numbers, given.number, true);
        }
    }
    let least = [
        (0, 200),
        (1, 300),
        (4, 500),
        (5, 500),
        (6, 500),
        (10, 2_000),
        (11, 100),
        (12, 1_000),
        (13, 300),
        (21, 200),
    ];
    assert_reached(&numbers, &least);
}

#[test]
fn every_bit_at_n_or_above_is_refused() {
    let mut both = Both::new();
    let mut numbers = Counts::<u32>::new();
    for table in [PAIRS.to_vec(), table(Statement::Skip, &[])] {
        for n in 1..=32 {
            for bit in 0..64 {
                let given = both.run(&table, n, 1 << bit);
                let number = if bit < n { 0 } else { 13 };
                assert_eq!(given.number, number);
                count(&mut numbers, number, true);
            }
            for word in [
                1 << n,
                1 | 1 << n,
                1 << 32,
                1 << 63,
                u64::MAX,
                u64::MAX << n,
            ] {
                assert_eq!(both.run(&table, n, word).number, 13);
            }
            assert_eq!(both.run(&table, n, (1 << n) - 1).number, 0);
        }
    }
    // Below n stand 1 + 2 + .. + 32 bits.
    assert_eq!(
        numbers,
        Counts::from([(0, 2 * 528), (13, 2 * (32 * 64 - 528))])
    );
}

#[test]
fn the_deepest_tables_run_on_the_stack_that_the_header_names() {
    for lean in [leaning_left, leaning_right] {
        let table = deepest(lean);
        for n in [1, 2, 31, 32] {
            let all = (1 << n) - 1;
            for word in [0, 1, 0x5555_5555 & all, all] {
                let end = on_that_stack(|| {
                    let workspace = &mut vec![1; SHORTEST_WORKSPACE];
                    assert_eq!(foq::verdict(&table, n, workspace), Ok(()));
                    foq::run(&table, n, word, workspace)
                });
                assert_eq!(end, Ok(word ^ all));
                assert_eq!(run(&table, n, word, SHORTEST_WORKSPACE), Ok(word ^ all));
            }
        }
    }
}
