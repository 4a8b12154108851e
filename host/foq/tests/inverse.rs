//! The inverse of a table beside the second interpreter's, on tables that are
//! accepted, damaged, wild or at a limit, in rooms of every length. Then tables
//! and inverses are run one after the other, and so are their circuits. Every
//! room is lent dirty and must come back with the inverse in front and its rest
//! as it was, after a refusal all of it. Each test counts the answers and the
//! tables of the classes that it is meant to reach, so that it cannot run empty.

mod calls;
mod counts;
mod lent;
mod limits;
mod refusals;
mod room;
mod sequences;
mod small_stack;
mod words;

use counts::{assert_reached, count, Counts};
use foq::{border, circuit_run, compile_to_vec, inverse_to_vec, run, verdict};
use foq::{Refusal, BLOCK_LENGTH};
use foq_expected::written;
use foq_generator::damage::{damaged, single_changes, truncations};
use foq_generator::emissions::slowest_compile;
use foq_generator::merged_lists::program_of_merged_lists;
use foq_generator::numbers::each_statement;
use foq_generator::programs::{
    program, program_from_the_end, wild_program, Shape, LARGE, MERGING, SMALL,
};
use foq_generator::published::{chained_substring, full_adder, palindromes};
use foq_generator::size_left::{program_by_size_left, reversal, wild_program_by_size_left};
use foq_generator::steps::program_of_steps;
use foq_generator::tables::{
    deepest, eight_removals, every_kind, full, leaning_left, leaning_right, nested_classes,
    one_in_each_branch, sixteen_in_turn, two_in_turn,
};
use foq_generator::tree::{
    call, case, encode, in_order, not, procedure, qcase, sequence, table, Number, Program,
    Statement,
};
use foq_generator::{Random, PAIRS};
use foq_reference::{inverse, read_table, SHORTEST_WORKSPACE};
use limits::trees;
use refusals::tables_in_order;
use room::Room;
use sequences::classes;
use small_stack::on_that_stack;
use std::{mem, slice};
use words::{every_word, sampled};
use Number::{Constant, SizePlus};

/// A room longer than any table here.
const LONG_ROOM: usize = 1 << 18;

/// Asks the product and the second interpreter, and counts what is seen.
struct Both {
    room: Room,
    random: Random,
    /// The numbers of qubits, one for each table.
    qubits: Counts<u32>,
    /// The numbers given, one for each table and room.
    numbers: Counts<u32>,
    /// What the tables and rooms show.
    shown: Counts,
}

impl Both {
    fn from_seed(seed: u64) -> Both {
        Both {
            room: Room::up_to(LONG_ROOM),
            random: Random::from_seed(seed),
            qubits: Counts::new(),
            numbers: Counts::new(),
            shown: Counts::new(),
        }
    }

    fn count(&mut self, class: &'static str, shown: bool) {
        count(&mut self.shown, class, shown);
    }

    /// The inverse or the refusal, with a room of this length.
    fn inverse_in(&mut self, table: &[u8], n: u32, room: usize) -> Result<Vec<u8>, u32> {
        let expected = inverse(table, n, room);
        let answer = written(&expected);
        let bytes = expected.as_deref().unwrap_or(&[]);
        self.room.lend(room, bytes, |lent| {
            let given = border::inverse(table, n, lent);
            assert_eq!(given, answer, "n = {n}, {room} lent, {table:02x?}");
            let front = &lent[..bytes.len()];
            assert_eq!(front, bytes, "n = {n}, {table:02x?}");
        });
        self.count_answer(answer.number, table.len(), room);
        expected
    }

    /// Counts an answer for a table and a room of these lengths.
    fn count_answer(&mut self, number: u32, table: usize, room: usize) {
        count(&mut self.numbers, number, true);
        let (inverted, short) = (number == 0, number == 24);
        self.count("exact room", inverted && room == table);
        self.count("longer room", inverted && room > table);
        self.count("room that lacks a byte", short && room + 1 == table);
        self.count("empty room", short && room == 0);
        let refused = !inverted && !short;
        self.count("refused in a short room", refused && room < table);
    }

    /// Asserts that of each sort of room there are at least so many for accepted
    /// tables, and so many short ones for tables that are refused.
    fn assert_rooms(&self, accepted: usize, refused: usize) {
        let least = [
            ("exact room", accepted),
            ("longer room", accepted),
            ("room that lacks a byte", accepted),
            ("empty room", accepted),
            ("refused in a short room", refused),
        ];
        assert_reached(&self.shown, &least);
    }

    /// The same with a room as long as the table, a longer one, one that lacks a
    /// byte and an empty one. What is accepted is looked at further.
    fn inverse(&mut self, table: &[u8], n: u32) -> Result<Vec<u8>, u32> {
        let length = table.len();
        let given = self.inverse_in(table, n, length);
        let more = self.random.pick(&[1, 2, 40, 200, 200, 3_000]).unwrap();
        let longer = length + 1 + self.random.below(more);
        assert_eq!(self.inverse_in(table, n, longer), given);
        let short = given.as_ref().err().copied().unwrap_or(24);
        for room in [length.saturating_sub(1), 0] {
            assert_eq!(self.inverse_in(table, n, room), Err(short));
        }
        if let Ok(inverse) = &given {
            self.look_at(table, inverse, n);
        }
        self.count("tables", true);
        count(&mut self.qubits, n, true);
        given
    }

    /// The number for a program on n qubits. Its inverse is the table of the
    /// program turned round.
    fn inverse_of(&mut self, program: Program, n: u32) -> u32 {
        match self.inverse(&encode(&program), n) {
            Ok(inverse) => {
                assert!(inverse == encode(&turned(program)));
                0
            }
            Err(number) => number,
        }
    }

    /// An inverse is as long as its table, accepted too, and its inverse is the
    /// table. Counts the classes that the table shows.
    fn look_at(&mut self, table: &[u8], inverse: &[u8], n: u32) {
        assert_eq!(inverse.len(), table.len());
        let workspace = &mut vec![1; SHORTEST_WORKSPACE];
        assert_eq!(verdict(inverse, n, workspace), Ok(()), "{table:02x?}");
        let again = self.inverse_in(inverse, n, table.len());
        assert_eq!(again.as_deref(), Ok(table));
        self.count("accepted", true);
        self.count("another table", inverse != table);
        self.count("the same table", inverse == table);
        for class in classes(&read_table(table).unwrap(), n) {
            self.count(class, true);
        }
    }
}

/// A number of qubits: mostly few, now and then one that is refused.
fn qubits(random: &mut Random) -> u32 {
    let most = match random.below(20) {
        0 => {
            let refused = [0, 33, 34, 64, 256 + 3, 65_536 + 3, 1 << 31, u32::MAX];
            return random.pick(&refused).unwrap();
        }
        1..12 => 6,
        12..16 => 12,
        _ => 32,
    };
    1 + random.below(most) as u32
}

/// A random program, mostly accepted on n qubits, of every sort in turn. One
/// sort has many records, at times too many.
fn made(random: &mut Random, turn: usize, n: u32) -> Program {
    let slips = [0, 1, 3, 8][turn / SORTS % 4];
    let shape = |shape| Shape { slips, ..shape };
    let crowded = Shape {
        records: 30,
        ..LARGE
    };
    match turn % SORTS {
        0 => program(random, &shape(SMALL)),
        1 => program(random, &shape(MERGING)),
        2 => program(random, &shape(LARGE)),
        3 => program(random, &shape(crowded)),
        4 => program_from_the_end(random, &shape(SMALL), n),
        5 | 6 => program_by_size_left(random, n),
        7 => program_of_merged_lists(random, n),
        _ => program_of_steps(random, n),
    }
}

/// How many turns go through all sorts; the last two are one.
const SORTS: usize = 10;

/// A random program that keeps the form of a table and nothing else.
fn wild(random: &mut Random, turn: usize) -> Program {
    match turn % 4 {
        0 => wild_program_by_size_left(random),
        1 => wild_program(random, &LARGE),
        _ => wild_program(random, &SMALL),
    }
}

/// The program with every sequence turned round.
fn turned(mut program: Program) -> Program {
    each_statement(&mut program, &mut |statement| {
        if let Statement::Sequence(first, second) = statement {
            mem::swap(first, second);
        }
    });
    program
}

/// Every number that an inverse is answered with.
const NUMBERS: [u32; 14] = [0, 1, 2, 3, 4, 5, 6, 7, 8, 9, 10, 11, 12, 24];

#[test]
fn programs_of_every_sort_are_inverted_alike() {
    let mut both = Both::from_seed(121);
    let mut random = Random::from_seed(122);
    for turn in 0..32_000 {
        let n = qubits(&mut random);
        let made = made(&mut random, turn, n);
        both.inverse_of(made, n);
    }
    let least = [
        (0, 75_000),
        (7, 2_000),
        (9, 5_000),
        (12, 7_000),
        (24, 50_000),
    ];
    assert_reached(&both.numbers, &least);
    let refused = [64, 256 + 3, 65_536 + 3, 1 << 31, u32::MAX];
    let all = (0..=34).chain(refused).map(|n| (n, 150));
    assert_reached(&both.qubits, &Vec::from_iter(all));
    let least = [
        ("tables", 32_000),
        ("accepted", 25_000),
        ("another table", 22_000),
        ("the same table", 1_800),
        ("sequence", 22_000),
        ("sequence in a sequence", 15_000),
        ("sequence in a qcase", 14_000),
        ("sequence in an if", 20_000),
        ("sequence in a branch not chosen", 1_800),
        ("sequence that main never comes to", 10_000),
        ("removal of base 0", 16_000),
        ("removal of base 1", 16_000),
        ("removal of base 2", 6_000),
    ];
    assert_reached(&both.shown, &least);
    both.assert_rooms(25_000, 6_000);
}

#[test]
fn damaged_programs_are_answered_alike() {
    let mut both = Both::from_seed(123);
    let mut random = Random::from_seed(124);
    for turn in 0..20_000 {
        let n = qubits(&mut random);
        let whole = match turn % 8 {
            0 => wild(&mut random, turn / 8),
            _ => made(&mut random, turn, n),
        };
        let table = damaged(&mut random, &encode(&whole));
        let _ = both.inverse(&table, n);
    }
    let least = [
        (0, 5_500),
        (1, 7_000),
        (2, 550),
        (3, 100),
        (4, 11_000),
        (5, 18_000),
        (6, 17_000),
        (7, 400),
        (8, 700),
        (9, 3_500),
        (10, 850),
        (11, 60),
        (12, 2_700),
        (24, 3_700),
    ];
    assert_eq!(least.map(|(number, _)| number), NUMBERS);
    assert_reached(&both.numbers, &least);
    let least = [("tables", 20_000), ("another table", 1_500)];
    assert_reached(&both.shown, &least);
    both.assert_rooms(1_800, 30_000);
}

#[test]
fn wild_programs_are_answered_alike() {
    let mut both = Both::from_seed(125);
    let mut random = Random::from_seed(126);
    for turn in 0..8_000 {
        let n = qubits(&mut random);
        let wild = wild(&mut random, turn);
        both.inverse_of(wild, n);
    }
    let least = [
        (0, 1_200),
        (9, 1_000),
        (10, 15_000),
        (11, 1_000),
        (12, 7_000),
        (24, 800),
    ];
    assert_reached(&both.numbers, &least);
    assert_reached(&both.shown, &[("tables", 8_000)]);
    both.assert_rooms(450, 13_000);
}

/// PAIRS, a table with every kind of record, and one with sequences inside
/// sequences, some in a procedure that is never called.
fn short_tables() -> [Vec<u8>; 3] {
    let mixed = case(1, sequence(not(2), not(3)), call(1, &[1]));
    let steps = in_order(vec![not(1), call(1, &[2]), not(2), mixed]);
    let nested = table(steps, &[sequence(not(1), Statement::Skip), full(3)]);
    [PAIRS.to_vec(), every_kind(), nested]
}

#[test]
fn every_single_change_is_answered_alike() {
    let mut both = Both::from_seed(127);
    for table in short_tables() {
        for changed in single_changes(&table) {
            let _ = both.inverse(&changed, 4);
        }
    }
    let least = [
        (0, 25_000),
        (1, 250),
        // Every other edition, and every number of procedures above 16.
        (2, 3 * 4 * 255),
        (3, 3 * 4 * 239),
        (4, 45_000),
        (5, 45_000),
        (6, 45_000),
        (8, 60),
        (10, 4),
        (12, 25_000),
        (24, 18_000),
    ];
    assert_reached(&both.numbers, &least);
    assert_reached(&both.shown, &[("tables", 50_000), ("another table", 5_000)]);
}

#[test]
fn every_truncation_is_answered_alike() {
    let mut both = Both::from_seed(128);
    let mut random = Random::from_seed(129);
    let random_ones = (0..30).map(|_| encode(&program_by_size_left(&mut random, 4)));
    for table in short_tables().into_iter().chain(random_ones) {
        for truncated in truncations(&table) {
            assert_eq!(both.inverse(&truncated, 4), Err(1));
        }
    }
    assert_reached(&both.shown, &[("tables", 4_000)]);
}

#[test]
fn random_bytes_are_answered_alike() {
    let mut both = Both::from_seed(130);
    let mut random = Random::from_seed(131);
    for _ in 0..10_000 {
        let length = random.below(60);
        let mut bytes: Vec<u8> = (0..length).map(|_| random.byte() % 13).collect();
        if let Some(edition) = bytes.first_mut() {
            *edition = 1;
        }
        let _ = both.inverse(&bytes, 3);
    }
    assert_reached(&both.numbers, &[(1, 2_000), (4, 5_000), (5, 5_000)]);
}

#[test]
fn tables_at_the_limits_are_answered_alike() {
    let mut both = Both::from_seed(132);
    let program = |main: &Statement, bodies: &[Statement]| Program {
        main: main.clone(),
        bodies: bodies.to_vec(),
    };
    let (skip, skips) = (&Statement::Skip, vec![Statement::Skip; 17]);
    for (number, depth) in [(0, 31), (0, 32), (7, 33), (7, 34)] {
        for tree in trees(depth) {
            let last = [&skips[..15], slice::from_ref(&tree)].concat();
            for made in [program(&tree, &[]), program(&call(16, &[]), &last)] {
                assert_eq!(both.inverse_of(made, 32), number);
            }
        }
    }
    let half = &full(7);
    let halves = [slice::from_ref(half), &skips].concat();
    for (number, made) in [
        (0, program(&full(8), &[])),
        (7, program(&full(8), &skips[..1])),
        (0, program(half, &halves[..2])),
        (7, program(half, &halves[..3])),
        (0, program(skip, &skips[..16])),
        (3, program(skip, &skips)),
    ] {
        assert_eq!(both.inverse_of(made, 3), number);
    }
    let least = [("tables", 4 * 11 * 2 + 6), ("another table", 8)];
    assert_reached(&both.shown, &least);
}

#[test]
fn damaged_tables_at_the_limits_are_answered_alike() {
    let mut both = Both::from_seed(141);
    let mut random = Random::from_seed(142);
    let mut tables: Vec<Vec<u8>> = trees(32).into_iter().map(|tree| table(tree, &[])).collect();
    tables.extend([
        table(full(8), &[]),
        sixteen_in_turn(),
        slowest_compile(),
        deepest(leaning_left),
        deepest(leaning_right),
    ]);
    for turn in 0..4_000 {
        let table = damaged(&mut random, &tables[turn % tables.len()]);
        let n = random.pick(&[1, 2, 3, 32]).unwrap();
        let _ = both.inverse(&table, n);
    }
    let least = [
        (0, 1_000),
        (1, 1_400),
        (4, 3_200),
        (5, 4_800),
        (6, 1_700),
        (7, 150),
        (8, 240),
        (12, 750),
        (24, 650),
    ];
    assert_reached(&both.numbers, &least);
}

/// The removals of the last eight positions.
fn last_eight() -> Vec<Number> {
    (0..8).map(|back| SizePlus(-back)).collect()
}

/// The longest table has 255 records of 30 bytes, and no sequence. The longest
/// one with 127 sequences has 128 other records.
#[test]
fn the_longest_tables_are_inverted_alike() {
    let mut both = Both::from_seed(133);
    let flip = |position| Statement::Not(last_eight(), Constant(position));
    let split =
        |half: Statement, position| qcase(last_eight(), Constant(position), half.clone(), half);
    let of_cases = (1..8).rev().fold(flip(8), split);
    let of_sequences = in_order((0..128).map(|turn| flip(1 + turn % 8)).collect());
    for (main, length) in [(of_cases, 7_652), (of_sequences, 4_096)] {
        let bodies = vec![];
        let made = Program { main, bodies };
        assert_eq!(encode(&made).len(), length);
        assert_eq!(both.inverse_of(made.clone(), 15), 12);
        assert_eq!(both.inverse_of(made, 16), 0);
    }
    for table in [
        slowest_compile(),
        sixteen_in_turn(),
        nested_classes(16),
        eight_removals(),
    ] {
        assert!(both.inverse(&table, 29).is_ok());
    }
    let least = [("accepted", 6), ("another table", 4), ("the same table", 2)];
    assert_reached(&both.shown, &least);
}

#[test]
fn a_long_table_is_answered_alike() {
    let mut both = Both::from_seed(134);
    let sequences = [&[1, 0][..], &[0, 2].repeat(1 << 16)].concat();
    assert_eq!(both.inverse(&sequences, 3), Err(7));
    for table in [PAIRS.to_vec(), vec![1, 16], vec![1, 0, 0, 3], vec![]] {
        for byte in [0, 1, 2, 11, 255] {
            let mut long = table.clone();
            long.resize(1 << 17, byte);
            assert!(both.inverse(&long, 3).is_err());
        }
    }
    assert_reached(&both.numbers, &[(2, 16), (4, 24), (5, 16), (8, 20)]);
}

#[test]
fn n_is_1_to_32() {
    let mut both = Both::from_seed(135);
    let refused = [33, 64, 256 + 3, 65_536 + 3, 1 << 31, u32::MAX];
    for table in short_tables() {
        for n in (0..=32).chain(refused) {
            let given = both.inverse(&table, n);
            assert_eq!(given == Err(9), !(1..=32).contains(&n));
        }
    }
    for n in [0].into_iter().chain(refused) {
        for table in [&[][..], &[0; 100], &[1, 17, 0, 0], &[1, 0, 0, 0]] {
            assert_eq!(both.inverse(table, n), Err(9));
        }
    }
    assert_reached(&both.numbers, &[(0, 200), (9, 4 * 7 * 7), (24, 150)]);
}

#[test]
fn the_first_refusal_in_the_order_is_given() {
    let mut both = Both::from_seed(136);
    let mut in_short_rooms = Counts::new();
    for (of_table, table) in tables_in_order() {
        let length = table.len();
        for n in [3, 0, 33, u32::MAX] {
            for room in [0, 1, length.saturating_sub(1), length, length + 1] {
                let refusals = [(9, n != 3), (of_table, of_table != 0), (24, room < length)];
                let first = refusals.into_iter().find(|(_, applies)| *applies);
                let number = first.map_or(0, |(number, _)| number);
                let given = both.inverse_in(&table, n, room);
                assert_eq!(given.err().unwrap_or(0), number, "{table:02x?}");
                count(&mut in_short_rooms, number, room < length);
            }
        }
    }
    let least = NUMBERS.map(|number| (number, 2));
    assert_reached(&both.numbers, &least);
    assert_reached(&in_short_rooms, &least[1..]);
}

#[test]
fn every_room_is_answered_alike() {
    let mut both = Both::from_seed(137);
    let skip = vec![1, 0, 0, 0];
    let longer = [skip, full_adder(), reversal(), sixteen_in_turn()];
    for table in short_tables().into_iter().chain(longer) {
        let length = table.len();
        for room in (0..length + 20).chain([1 << 12, 1 << 16, LONG_ROOM]) {
            let number = both.inverse_in(&table, 7, room).err().unwrap_or(0);
            assert_eq!(number, if room < length { 24 } else { 0 });
        }
    }
    assert_reached(&both.numbers, &[(0, 7 * 23), (24, 1_500)]);
}

/// Asks with a table and a room that stand side by side, `start` bytes into
/// others. Asserts that nothing but the front of the room has changed.
fn inverse_beside(table: &[u8], room: usize, start: usize, room_first: bool) {
    let dirt = |length| vec![0xA5; length];
    let mut slices = [table.to_vec(), dirt(room)];
    if room_first {
        slices.reverse();
    }
    let mut bytes = [dirt(start), slices.concat(), dirt(16)].concat();
    let mut expected = bytes.clone();
    let (before, behind) = bytes.split_at_mut(start + slices[0].len());
    let (given, place) = if room_first {
        let given = border::inverse(&behind[..table.len()], 5, &mut before[start..]);
        (given, start)
    } else {
        let given = border::inverse(&before[start..], 5, &mut behind[..room]);
        (given, start + table.len())
    };
    let inverse = inverse(table, 5, room);
    assert_eq!(given, written(&inverse));
    let inverse = inverse.unwrap_or_default();
    expected[place..][..inverse.len()].copy_from_slice(&inverse);
    assert!(bytes == expected, "{room} at {start} for {table:02x?}");
}

#[test]
fn a_room_may_lie_anywhere() {
    for table in short_tables() {
        let length = table.len();
        for start in 0..=70 {
            for room in [length - 1, length, length + 1, length + 8, 4_096] {
                inverse_beside(&table, room, start, true);
                inverse_beside(&table, room, start, false);
            }
        }
    }
}

#[test]
fn empty_slices_are_answered_alike() {
    let mut both = Both::from_seed(138);
    let answer = |number| border::Answer { number, value: 0 };
    assert_eq!(border::inverse(&[], 3, &mut []), answer(1));
    assert_eq!(border::inverse(&[], 0, &mut []), answer(9));
    assert_eq!(border::inverse(PAIRS, 3, &mut []), answer(24));
    assert_eq!(border::inverse(PAIRS, 33, &mut []), answer(9));
    for room in [0, 1, 59, LONG_ROOM] {
        assert_eq!(both.inverse_in(&[], 3, room), Err(1));
        assert_eq!(both.inverse_in(&[], 0, room), Err(9));
    }
}

#[test]
fn the_bindings_give_the_bytes_of_the_room() {
    for table in short_tables() {
        let expected = inverse(&table, 6, table.len()).unwrap();
        let mut room = vec![7; table.len() + 9];
        let start = room.as_ptr();
        let given = foq::inverse(&table, 6, &mut room).unwrap();
        assert_eq!((given, given.as_ptr()), (&expected[..], start));
        assert_eq!(room[table.len()..], [7; 9]);
        assert_eq!(inverse_to_vec(&table, 6), Ok(expected));
        let short = &mut vec![7; table.len() - 1];
        let given = foq::inverse(&table, 6, short);
        assert_eq!(given, Err(Refusal::SHORT_TABLE_ROOM));
        assert!(short.iter().all(|&byte| byte == 7));
        assert_eq!(inverse_to_vec(&table, 33), Err(Refusal::WRONG_QUBITS));
    }
}

/// A table and its inverse, with the circuits of both.
struct Pair {
    n: u32,
    tables: [Vec<u8>; 2],
    circuits: [Vec<u8>; 2],
    workspace: Vec<u8>,
}

impl Pair {
    /// None where the table is refused, or where a circuit does not fit: then a
    /// run could take for ever.
    fn of(table: &[u8], n: u32) -> Option<Pair> {
        let tables = [table.to_vec(), inverse_to_vec(table, n).ok()?];
        let [there, back] = tables.each_ref().map(|table| compile_to_vec(table, n));
        Some(Pair {
            n,
            tables,
            circuits: [there.ok()?, back.ok()?],
            workspace: vec![1; SHORTEST_WORKSPACE],
        })
    }

    /// The end word of the table or, for turn 1, of the inverse. The circuit's
    /// data wires hold it too, and every other bit is zero.
    fn end(&mut self, turn: usize, word: u64) -> u64 {
        let ran = run(&self.tables[turn], self.n, word, &mut self.workspace);
        let block = circuit_run(&self.circuits[turn], word).unwrap();
        let end = block.word();
        assert_eq!(ran, Ok(end), "{word:x}, {:02x?}", self.tables[turn]);
        let mut bits = [0; BLOCK_LENGTH];
        bits[..8].copy_from_slice(&end.to_le_bytes());
        assert_eq!(block.bits, bits);
        end
    }

    /// Asserts that one after the other gives the start word, whichever comes
    /// first. Gives the two words between.
    fn undo(&mut self, word: u64) -> [u64; 2] {
        [(0, 1), (1, 0)].map(|(first, second)| {
            let between = self.end(first, word);
            let end = self.end(second, between);
            assert_eq!(end, word, "n = {}, {:02x?}", self.n, self.tables[0]);
            between
        })
    }
}

/// Undoes a table from each word and counts the classes that it shows.
fn undo_all(table: &[u8], n: u32, words: impl IntoIterator<Item = u64>, counts: &mut Counts) {
    let Some(mut pair) = Pair::of(table, n) else {
        count(counts, "refused or too large", true);
        return;
    };
    let (mut changed, mut another, mut undone) = (false, false, 0);
    for word in words {
        let [there, back] = pair.undo(word);
        changed |= there != word;
        another |= there != back;
        undone += 1;
    }
    let [there, back] = &pair.circuits;
    count(counts, "undone", true);
    count(counts, "changes a word", changed);
    count(counts, "another run", another);
    count(counts, "another circuit", there != back);
    // With how many others an inner chain's ancillas are in use goes by the order.
    count(counts, "other ancillas", there[2] != back[2]);
    *counts.entry("words").or_default() += undone;
    for class in classes(&read_table(table).unwrap(), n) {
        count(counts, class, true);
    }
}

#[test]
fn programs_of_every_sort_are_undone_on_every_word_of_up_to_8_qubits() {
    let mut random = Random::from_seed(139);
    let mut counts = Counts::new();
    for turn in 0..3_200 {
        let n = 1 + random.below(8) as u32;
        let table = encode(&made(&mut random, turn, n));
        undo_all(&table, n, every_word(n), &mut counts);
    }
    let least = [
        ("undone", 2_700),
        ("words", 165_000),
        ("changes a word", 1_750),
        ("another run", 600),
        ("another circuit", 1_250),
        ("other ancillas", 50),
        ("sequence in a sequence", 1_750),
        ("sequence in a qcase", 1_650),
        ("sequence in an if", 2_300),
        ("sequence that main never comes to", 1_050),
        ("removal of base 0", 1_900),
        ("removal of base 1", 1_800),
        ("removal of base 2", 650),
    ];
    assert_reached(&counts, &least);
}

#[test]
fn tables_of_known_shape_are_undone_on_every_word_of_up_to_8_qubits() {
    let mut counts = Counts::new();
    for table in [
        PAIRS.to_vec(),
        every_kind(),
        one_in_each_branch(),
        two_in_turn(),
        nested_classes(3),
        reversal(),
        full_adder(),
        palindromes(),
        chained_substring(),
        sixteen_in_turn(),
        slowest_compile(),
    ] {
        for n in 1..=8 {
            undo_all(&table, n, every_word(n), &mut counts);
        }
    }
    let least = [("undone", 75), ("another run", 8), ("words", 5_000)];
    assert_reached(&counts, &least);
}

#[test]
fn programs_on_many_qubits_are_undone_on_some_words() {
    let mut random = Random::from_seed(140);
    let mut counts = Counts::new();
    for turn in 0..3_000 {
        let n = 9 + random.below(24) as u32;
        let table = encode(&made(&mut random, turn, n));
        let words = sampled(&mut random, n, 4);
        undo_all(&table, n, words, &mut counts);
        count(&mut counts, "32 qubits", n == 32);
    }
    let least = [
        ("undone", 2_400),
        ("words", 14_000),
        ("changes a word", 1_900),
        ("another run", 950),
        ("another circuit", 1_600),
        ("other ancillas", 80),
        ("32 qubits", 100),
    ];
    assert_reached(&counts, &least);
}

/// A NOT of qubit 1 and then, where it holds 1, the same on the others: the
/// table counts down, and its inverse counts up.
#[test]
fn the_inverse_of_counting_down_counts_up() {
    let others = case(1, Statement::Skip, call(1, &[1]));
    let down = procedure(sequence(not(1), others.clone()));
    let up = procedure(sequence(others, not(1)));
    for n in 1..=8 {
        let mut pair = Pair::of(&down, n).unwrap();
        assert_eq!(pair.tables[1], up);
        for word in every_word(n) {
            let last = (1 << n) - 1;
            let counted = [word.wrapping_sub(1) & last, (word + 1) & last];
            assert_eq!(pair.undo(word), counted);
        }
    }
}

#[test]
fn the_deepest_tables_are_each_others_inverses_on_the_stack_that_the_header_names() {
    let [left, right] = [leaning_left, leaning_right].map(deepest);
    for (table, expected) in [(&left, &right), (&right, &left)] {
        for n in [1, 2, 31, 32] {
            let given = on_that_stack(|| inverse_to_vec(table, n));
            assert_eq!(given.as_ref(), Ok(expected));
            assert_eq!(inverse(table, n, table.len()).as_ref(), Ok(expected));
            let mut pair = Pair::of(table, n).unwrap();
            for word in [0, 1, 0x5555_5555 & ((1 << n) - 1), (1 << n) - 1] {
                pair.undo(word);
            }
        }
    }
}
