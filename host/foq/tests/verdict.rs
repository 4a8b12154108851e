//! The verdict beside the second interpreter's, on tables that are accepted,
//! damaged, wild or at a limit. Every workspace is lent dirty and must come
//! back as zeros. Each test counts the answers that it is meant to reach, so
//! that it cannot run empty.

mod asked;
mod counts;
mod lent;
mod limits;

use asked::verdict_of_both;
use counts::{assert_reached, count, Counts};
use foq::border;
use foq_generator::damage::{damaged, single_changes, truncations};
use foq_generator::programs::{program, wild_program, Shape, LARGE, MERGING, SMALL};
use foq_generator::tables::{
    closed_through_a_call, deepest, eight_removals, every_kind, full, leaning_left, leaning_right,
    nested_classes, one_in_each_branch, sixteen_in_turn, two_in_sequence, two_in_turn,
    without_removal,
};
use foq_generator::tree::{
    call, choose, encode, longer_than, not, sequence, table, Condition, Number, Statement,
};
use foq_generator::{Random, PAIRS};
use foq_reference::{plain_verdict, SHORTEST_WORKSPACE};
use lent::{Workspace, LENGTHS};
use limits::{trees, CONSTANTS};
use Number::{Constant, SizePlus};

/// Asks the product and the second interpreter, and counts the answers.
struct Both {
    workspace: Workspace,
    verdicts: Counts<u32>,
}

impl Both {
    fn new() -> Both {
        Both {
            workspace: Workspace::up_to(40_000),
            verdicts: Counts::new(),
        }
    }

    /// The verdict with a workspace of this length.
    fn verdict_with(&mut self, table: &[u8], n: u32, length: usize) -> u32 {
        let given = verdict_of_both(&mut self.workspace, table, n, length);
        count(&mut self.verdicts, given, true);
        given
    }

    /// The verdict with a workspace that is just long enough.
    fn verdict(&mut self, table: &[u8], n: u32) -> u32 {
        self.verdict_with(table, n, SHORTEST_WORKSPACE)
    }

    /// The verdict with a workspace that is just long enough and with one of
    /// another length.
    fn verdicts(&mut self, random: &mut Random, table: &[u8], n: u32) -> u32 {
        let other = random.pick(&LENGTHS).unwrap();
        self.verdict_with(table, n, other);
        self.verdict(table, n)
    }

    /// How many verdicts were given.
    fn given(&self) -> usize {
        self.verdicts.values().sum()
    }
}

/// A number of qubits, mostly small.
fn qubits(random: &mut Random) -> u32 {
    let most = random.pick(&[6, 6, 6, 12, 32]).unwrap();
    1 + random.below(most) as u32
}

/// Short tables: PAIRS, one with every kind of record, and one each for the
/// refusals 10, 11 and 12.
fn short_tables() -> Vec<Vec<u8>> {
    vec![
        PAIRS.to_vec(),
        every_kind(),
        vec![1, 0, 0, 0],
        one_in_each_branch(),
        closed_through_a_call(),
        two_in_sequence(),
        without_removal(),
    ]
}

/// Longer tables.
fn longer_tables() -> Vec<Vec<u8>> {
    let limits = Condition::Or(
        Box::new(Condition::Greater(SizePlus(i16::MAX), Constant(i16::MIN))),
        Box::new(Condition::Equal(SizePlus(i16::MIN), Constant(i16::MAX))),
    );
    let bodies = vec![Statement::Skip; 16];
    vec![
        two_in_turn(),
        eight_removals(),
        nested_classes(3),
        table(choose(limits, not(1), not(0)), &[]),
        table(call(16, &[1]), &bodies),
        sixteen_in_turn(),
        deepest(leaning_left),
    ]
}

#[test]
fn worked_programs_have_their_verdicts() {
    let mut both = Both::new();
    for n in 1..=32 {
        let fault = if n == 1 { 0 } else { 12 };
        for (number, table) in [
            (0, PAIRS.to_vec()),
            (1, vec![]),
            (0, vec![1, 0, 0, 0]),
            (10, without_removal()),
            (11, two_in_sequence()),
            (0, one_in_each_branch()),
            (fault, closed_through_a_call()),
            (0, table(Statement::Not(vec![], SizePlus(0)), &[])),
            (12, table(Statement::Not(vec![], SizePlus(1)), &[])),
            (12, table(not(0), &[])),
        ] {
            assert_eq!(both.verdict(&table, n), number, "n = {n}, {table:02x?}");
        }
    }
}

#[test]
fn n_is_1_to_32() {
    let mut both = Both::new();
    let mut tables = [short_tables(), longer_tables()].concat();
    tables.extend([vec![], vec![0; 100]]);
    for table in &tables {
        for n in [0, 33, 64, 256 + 3, 65_536 + 3, 1 << 31, u32::MAX] {
            for length in LENGTHS {
                assert_eq!(both.verdict_with(table, n, length), 9);
            }
        }
        for n in [1, 32] {
            for length in LENGTHS {
                assert_ne!(both.verdict_with(table, n, length), 9);
            }
        }
    }
    assert_reached(&both.verdicts, &[(9, 500), (0, 30), (21, 30)]);
}

#[test]
fn every_truncation_is_answered_alike() {
    let mut both = Both::new();
    let mut random = Random::from_seed(61);
    let mut tables = [short_tables(), longer_tables()].concat();
    tables.extend((0..200).map(|_| encode(&program(&mut random, &SMALL))));
    for table in &tables {
        for truncated in truncations(table) {
            let n = qubits(&mut random);
            assert_eq!(both.verdicts(&mut random, &truncated, n), 1);
        }
    }
    assert_reached(&both.verdicts, &[(1, 30_000)]);
}

#[test]
fn every_single_change_of_short_tables_is_answered_alike() {
    let mut both = Both::new();
    for table in short_tables() {
        for changed in single_changes(&table) {
            both.verdict(&changed, 4);
        }
    }
    let least = [
        (0, 8_000),
        (1, 100),
        (2, 255 * 7),
        (3, 239 * 7),
        (4, 8_000),
        (5, 8_000),
        (6, 10_000),
        (8, 10),
        (10, 1),
        (11, 800),
        (12, 4_000),
    ];
    assert_reached(&both.verdicts, &least);
}

#[test]
fn some_single_changes_of_longer_tables_are_answered_alike() {
    let mut both = Both::new();
    let mut random = Random::from_seed(62);
    for table in longer_tables() {
        for changed in single_changes(&table) {
            if random.chance(4) {
                let n = qubits(&mut random);
                both.verdicts(&mut random, &changed, n);
            }
        }
    }
    let least = [
        (0, 3_000),
        (1, 15),
        (4, 8_000),
        (5, 8_000),
        (6, 5_000),
        (8, 10),
        (12, 2_500),
    ];
    assert_reached(&both.verdicts, &least);
}

/// Random programs of a shape that is given slips, so that some fault.
fn compare_programs(seed: u64, shape: Shape, tables: usize) -> Both {
    let mut both = Both::new();
    let mut random = Random::from_seed(seed);
    for turn in 0..tables {
        let slips = [0, 1, 3, 8][turn % 4];
        let table = encode(&program(&mut random, &Shape { slips, ..shape }));
        let n = qubits(&mut random);
        both.verdict(&table, n);
    }
    both
}

#[test]
fn small_programs_are_answered_alike() {
    let both = compare_programs(63, SMALL, 40_000);
    assert_reached(&both.verdicts, &[(0, 30_000), (12, 3_000)]);
}

#[test]
fn merging_programs_are_answered_alike() {
    let both = compare_programs(64, MERGING, 25_000);
    assert_reached(&both.verdicts, &[(0, 20_000), (12, 2_500)]);
}

#[test]
fn programs_of_many_procedures_are_answered_alike() {
    // Some have more than 255 records.
    let shape = Shape {
        records: 30,
        ..LARGE
    };
    let both = compare_programs(65, shape, 6_000);
    let least = [(0, 3_000), (7, 1_000), (12, 700)];
    assert_reached(&both.verdicts, &least);
}

#[test]
fn damaged_programs_are_answered_alike() {
    let mut both = Both::new();
    let mut random = Random::from_seed(66);
    for turn in 0..80_000 {
        let shape = [SMALL, SMALL, SMALL, MERGING, LARGE][turn % 5];
        let whole = encode(&program(&mut random, &shape));
        let table = damaged(&mut random, &whole);
        let n = qubits(&mut random);
        both.verdict(&table, n);
    }
    let least = [
        (0, 8_000),
        (1, 6_000),
        (2, 500),
        (3, 100),
        (4, 10_000),
        (5, 15_000),
        (6, 15_000),
        (8, 700),
        (10, 5),
        (11, 5),
        (12, 1_500),
    ];
    assert_reached(&both.verdicts, &least);
}

#[test]
fn damaged_tables_at_the_limits_are_answered_alike() {
    let mut both = Both::new();
    let mut random = Random::from_seed(70);
    let mut tables: Vec<Vec<u8>> = trees(32).into_iter().map(|tree| table(tree, &[])).collect();
    tables.extend([
        table(full(8), &[]),
        sixteen_in_turn(),
        deepest(leaning_left),
        deepest(leaning_right),
    ]);
    for turn in 0..15_000 {
        let whole = &tables[turn % tables.len()];
        let table = damaged(&mut random, whole);
        let n = random.pick(&[1, 2, 3, 32]).unwrap();
        both.verdict(&table, n);
    }
    let least = [(0, 100), (1, 100), (4, 100), (5, 100), (6, 50), (7, 100)];
    assert_reached(&both.verdicts, &least);
}

#[test]
fn wild_programs_are_answered_alike() {
    let mut both = Both::new();
    let mut random = Random::from_seed(67);
    for turn in 0..40_000 {
        let shape = [SMALL, SMALL, SMALL, LARGE][turn % 4];
        let table = encode(&wild_program(&mut random, &shape));
        let n = qubits(&mut random);
        both.verdicts(&mut random, &table, n);
    }
    let least = [
        (0, 3_000),
        (10, 30_000),
        (11, 2_500),
        (12, 15_000),
        (21, 1_000),
    ];
    assert_reached(&both.verdicts, &least);
}

#[test]
fn random_bytes_are_answered_alike() {
    let mut both = Both::new();
    let mut random = Random::from_seed(68);
    for _ in 0..20_000 {
        let length = random.below(60);
        let mut bytes: Vec<u8> = (0..length).map(|_| random.byte() % 13).collect();
        if let Some(edition) = bytes.first_mut() {
            *edition = 1;
        }
        let n = qubits(&mut random);
        both.verdicts(&mut random, &bytes, n);
    }
    assert_eq!(both.given(), 40_000);
    let least = [(1, 2_000), (4, 5_000), (5, 5_000)];
    assert_reached(&both.verdicts, &least);
}

#[test]
fn the_plain_look_for_faults_agrees_on_few_qubits() {
    let mut both = Both::new();
    let mut random = Random::from_seed(69);
    for turn in 0..9_000 {
        let shape = [SMALL, MERGING, LARGE][turn % 3];
        let tables = [
            encode(&program(&mut random, &Shape { slips: 4, ..shape })),
            encode(&wild_program(&mut random, &shape)),
        ];
        for table in tables {
            let n = 1 + random.below(6) as u32;
            let given = both.verdict(&table, n);
            assert_eq!(given, plain_verdict(&table, n, SHORTEST_WORKSPACE));
        }
    }
    let least = [(0, 6_000), (10, 1_000), (11, 300), (12, 2_000)];
    assert_reached(&both.verdicts, &least);
}

#[test]
fn trees_are_at_most_32_records_deep() {
    let mut both = Both::new();
    for (number, depth) in [(0, 31), (0, 32), (7, 33), (7, 34)] {
        for tree in trees(depth) {
            assert_eq!(both.verdict(&table(tree.clone(), &[]), 32), number);
            let mut bodies = vec![Statement::Skip; 15];
            bodies.push(tree);
            let table = table(call(16, &[]), &bodies);
            assert_eq!(both.verdict(&table, 32), number);
        }
    }
    assert_eq!(both.given(), 4 * 11 * 2);
}

/// The table with a sequence more around main: two records more.
fn with_two_more(table: &[u8]) -> Vec<u8> {
    let (header, records) = table.split_at(2);
    [header, &[0, 2, 0, 0], records].concat()
}

#[test]
fn there_are_at_most_255_records_in_a_table() {
    let mut both = Both::new();
    let one_more = |table: &[u8]| [&[table[0], table[1] + 1], &table[2..], &[0, 0]].concat();
    let asks = choose(longer_than(1), Statement::Skip, Statement::Skip);
    // 127 + 63 + 31 + 15 = 236 records, and 4 for each if with its condition.
    let conditions = [vec![full(6), full(5), full(4)], vec![asks; 4]].concat();
    for (records, table) in [
        (255, table(full(8), &[])),
        (255, table(full(7), &[full(7), Statement::Skip])),
        (254, table(full(7), &[full(7)])),
        (252, table(full(7), &conditions)),
    ] {
        let mut grown = table;
        for records in records..=257 {
            let number = if records > 255 { 7 } else { 0 };
            assert_eq!(both.verdict(&grown, 3), number, "{records} records");
            grown = one_more(&grown);
        }
    }
    for table in [
        sixteen_in_turn(),
        deepest(leaning_left),
        deepest(leaning_right),
    ] {
        for n in [1, 2, 3, 31, 32] {
            assert_eq!(both.verdict(&table, n), 0);
            assert_eq!(both.verdict(&with_two_more(&table), n), 7);
        }
    }
}

#[test]
fn there_are_at_most_16_procedures() {
    let mut both = Both::new();
    for procedures in 0..=255u8 {
        let bodies = vec![Statement::Skip; usize::from(procedures)];
        let whole = table(Statement::Skip, &bodies);
        let number = if procedures > 16 { 3 } else { 0 };
        assert_eq!(both.verdict(&whole, 3), number);
        if procedures <= 16 {
            let short = &whole[..whole.len() - 2];
            assert_eq!(both.verdict(short, 3), 1);
            let long = [&whole[..], &[0, 0]].concat();
            assert_eq!(both.verdict(&long, 3), 8);
        }
        for callee in 0..=18 {
            let whole = table(call(callee, &[]), &bodies);
            let known = (1..=procedures).contains(&callee);
            let number = match procedures {
                17.. => 3,
                _ if known => 0,
                _ => 6,
            };
            assert_eq!(both.verdict(&whole, 3), number);
        }
    }
}

/// Constants at the ends of 16 bits and about the sizes of lists, with both
/// bases.
fn numbers() -> Vec<Number> {
    let plain = CONSTANTS.map(Constant);
    let sized = CONSTANTS.map(SizePlus);
    [plain, sized].concat()
}

#[test]
fn numbers_at_the_limits_are_compared_alike() {
    let mut both = Both::new();
    let kinds = [Condition::Greater, Condition::AtLeast, Condition::Equal];
    for kind in kinds {
        for a in numbers() {
            for b in numbers() {
                for n in [1, 2, 31, 32] {
                    let holds = choose(kind(a, b), Statement::Skip, not(0));
                    both.verdict(&table(holds, &[]), n);
                }
            }
        }
    }
    // A sum past 16 bits is more than the largest constant.
    let past = Condition::Greater(SizePlus(i16::MAX), Constant(i16::MAX));
    let past = table(choose(past, Statement::Skip, not(0)), &[]);
    assert_eq!(both.verdict(&past, 1), 0);
    let least = [(0, 3_000), (12, 3_000)];
    assert_reached(&both.verdicts, &least);
}

#[test]
fn positions_at_the_limits_are_looked_up_alike() {
    let mut both = Both::new();
    let skip = || Statement::Skip;
    for a in numbers() {
        let alone = [
            Statement::Not(vec![], a),
            Statement::Qcase(vec![], a, Box::new(skip()), Box::new(skip())),
            Statement::Call(vec![a], 1),
        ];
        for statement in alone {
            for n in [1, 2, 31, 32] {
                both.verdict(&table(statement.clone(), &[not(1)]), n);
            }
        }
        for b in numbers() {
            let flip = Statement::Not(vec![a], b);
            let twice = sequence(Statement::Call(vec![a, b], 1), skip());
            let inside = Statement::Qcase(
                vec![],
                Constant(1),
                Box::new(Statement::Call(vec![a], 1)),
                Box::new(Statement::Not(vec![a], b)),
            );
            for statement in [flip, twice, inside] {
                for n in [1, 2, 32] {
                    both.verdict(&table(statement.clone(), &[not(1)]), n);
                }
            }
        }
    }
    let least = [(0, 2_000), (12, 3_000)];
    assert_reached(&both.verdicts, &least);
}

/// A table for each verdict from 0 to 12 but 9.
fn table_of_each_number() -> Vec<(u32, Vec<u8>)> {
    vec![
        (0, PAIRS.to_vec()),
        (1, vec![]),
        (1, vec![1, 0, 0]),
        (2, vec![2, 0, 0, 0]),
        (3, vec![1, 17, 0, 0]),
        (4, vec![1, 0, 0, 12]),
        (5, vec![1, 0, 1, 0]),
        (6, vec![1, 0, 8, 5, 1]),
        (7, table(full(8), &[Statement::Skip])),
        (8, vec![1, 0, 0, 0, 0]),
        (10, without_removal()),
        (11, two_in_sequence()),
        (12, table(not(0), &[])),
    ]
}

#[test]
fn a_workspace_of_any_length_and_content_is_zero_afterwards() {
    let mut both = Both::new();
    both.workspace = Workspace::up_to(1 << 20);
    let lengths = [2, 7, 8, 9, 100, 4_096, 32_760, 32_769, 65_536, 1 << 20];
    for (number, table) in table_of_each_number() {
        for length in LENGTHS.into_iter().chain(lengths) {
            let short = length < SHORTEST_WORKSPACE;
            let number = if number == 0 && short { 21 } else { number };
            for _ in 0..20 {
                assert_eq!(both.verdict_with(&table, 3, length), number);
            }
            for content in [0, 1, 0x80, 0xFF] {
                let mut workspace = vec![content; length];
                assert_eq!(border::verdict(&table, 3, &mut workspace), number);
                assert_eq!(workspace, vec![0; length]);
            }
        }
    }
    let least = [(0, 100), (21, 100), (1, 500), (12, 300)];
    assert_reached(&both.verdicts, &least);
}

#[test]
fn a_long_table_is_answered_alike() {
    let mut both = Both::new();
    let sequences = [&[1, 0][..], &[0, 2].repeat(1 << 16)].concat();
    assert_eq!(both.verdict(&sequences, 3), 7);
    for table in [PAIRS.to_vec(), vec![1, 16], vec![1, 0, 0, 3], vec![]] {
        for byte in [0, 1, 2, 11, 255] {
            let mut long = table.clone();
            long.resize(1 << 17, byte);
            both.verdict(&long, 3);
        }
    }
    assert_reached(&both.verdicts, &[(2, 4), (4, 6), (5, 4), (8, 6)]);
}
