//! Base 2, the size of the list left by the removals already done in a record:
//! worked by hand, beside tables that say the same with base 1, and in random
//! tables beside the second interpreter, in verdict, run and compile. Every room
//! and workspace is lent dirty and looked at afterwards. Each test counts the
//! tables of the classes that it is meant to reach, so that it cannot run empty.

mod asked;
mod compiled;
mod counts;
mod lent;
mod limits;
mod room;
mod steps;
mod words;

use asked::{run_of_both, verdict_of_both};
use compiled::{assert_read_back, end_alike, Both};
use counts::{add, assert_reached, count, halves, Counts};
use foq::border::Answer;
use foq_generator::damage::damaged;
use foq_generator::numbers::{each_number, Field};
use foq_generator::programs::{program, program_from_the_end, Shape, LARGE, MERGING, SMALL};
use foq_generator::size_left::{
    by_size_left, program_by_size_left, reversal, reversal_by_hand, wild_program_by_size_left,
};
use foq_generator::tree::{
    choose, encode, not, qcase, sequence, table, Condition, Number, Program, Statement,
};
use foq_generator::Random;
use foq_reference::{compile, plain_verdict, LONGEST_CIRCUIT, SHORTEST_WORKSPACE};
use lent::LENGTHS;
use limits::CONSTANTS;
use words::{every_word, sampled};
use Number::{Constant, LeftPlus, SizePlus};

impl Both {
    fn verdict(&mut self, table: &[u8], n: u32) -> u32 {
        verdict_of_both(&mut self.workspace, table, n, SHORTEST_WORKSPACE)
    }

    fn run(&mut self, table: &[u8], n: u32, word: u64) -> Answer {
        run_of_both(&mut self.workspace, table, n, word, SHORTEST_WORKSPACE)
    }

    /// The qubit that a main statement flips on n qubits, all of them 0 at the
    /// start; 0 where it flips none. The circuit does the same.
    fn flipped(&mut self, main: &Statement, bodies: &[Statement], n: u32) -> Result<u32, u32> {
        let table = table(main.clone(), bodies);
        let Answer { number, value } = self.run(&table, n, 0);
        if number != 0 {
            assert_eq!(self.circuit(&table, n), Err(number));
            return Err(number);
        }
        let circuit = self.circuit(&table, n).unwrap();
        end_alike(&table, n, &circuit, [0]);
        assert!(value.count_ones() <= 1);
        Ok(value.checked_ilog2().map_or(0, |bit| bit + 1))
    }
}

/// A NOT with these removals and this position.
fn flip(removals: &[Number], position: Number) -> Statement {
    Statement::Not(removals.to_vec(), position)
}

#[test]
fn position_a_counts_what_all_removals_left() {
    let mut both = Both::new();
    let last = LeftPlus(0);
    for (removals, position, found) in [
        (&[][..], last, Ok(5)),
        (&[], LeftPlus(-4), Ok(1)),
        (&[], LeftPlus(-5), Err(12)),
        (&[], LeftPlus(1), Err(12)),
        // 2, 3, 4, 5 are left.
        (&[Constant(1)], last, Ok(5)),
        (&[Constant(1)], SizePlus(0), Err(12)),
        (&[Constant(1)], LeftPlus(-3), Ok(2)),
        (&[Constant(1)], LeftPlus(-4), Err(12)),
        // 1, 3, 5 are left.
        (&[Constant(4), Constant(2)], last, Ok(5)),
        (&[Constant(4), Constant(2)], LeftPlus(-1), Ok(3)),
        (&[Constant(4), Constant(2)], LeftPlus(-2), Ok(1)),
        (&[], LeftPlus(i16::MIN), Err(12)),
        (&[], LeftPlus(i16::MAX), Err(12)),
    ] {
        assert_eq!(both.flipped(&flip(removals, position), &[], 5), found);
    }
}

#[test]
fn a_removal_counts_what_those_before_it_left() {
    let mut both = Both::new();
    let (first, last) = (Constant(1), LeftPlus(0));
    for (removals, found) in [
        // In the first removal that is the whole list.
        (&[LeftPlus(-4)][..], Ok(2)),
        (&[LeftPlus(-3)], Ok(1)),
        // Removed are 1 and then, out of 2, 3, 4, 5, the first one.
        (&[LeftPlus(-4), LeftPlus(-3)], Ok(3)),
        (&[first, LeftPlus(-3)], Ok(3)),
        // With base 1 the second one would be 3.
        (&[first, SizePlus(-3)], Ok(2)),
        // 5, 1, 4, 2.
        (&[last, first, last, first], Ok(3)),
        (&[last, LeftPlus(-3), last, LeftPlus(-1)], Ok(3)),
        // The third removal finds none, and nothing is found behind it.
        (&[first, first, LeftPlus(-3), last], Err(12)),
        (&[first, LeftPlus(1)], Err(12)),
        (&[last, last, last, last, last], Err(12)),
    ] {
        assert_eq!(both.flipped(&flip(removals, first), &[], 5), found);
    }
    for removed in 1..=8 {
        for n in 1..=32 {
            let found = if n > removed {
                Ok(n - removed)
            } else {
                Err(12)
            };
            let removals = vec![last; removed as usize];
            assert_eq!(both.flipped(&flip(&removals, last), &[], n), found);
        }
    }
}

#[test]
fn a_call_hands_on_what_its_removals_left() {
    let mut both = Both::new();
    let bodies = [not(1)];
    let (first, last) = (Constant(1), LeftPlus(0));
    let call = |removals: &[Number]| Statement::Call(removals.to_vec(), 1);
    // Without the first qubit and the last one.
    for (n, found) in [(1, 0), (2, 0), (3, 2), (4, 2), (32, 2)] {
        assert_eq!(both.flipped(&call(&[first, last]), &bodies, n), Ok(found));
    }
    for (removals, found) in [
        (&[LeftPlus(-4), LeftPlus(-3)][..], 3),
        (&[LeftPlus(-4), LeftPlus(-3), LeftPlus(-2)], 4),
        (&[LeftPlus(-4), SizePlus(-3)], 2),
        // Once the list is empty, its size is 0 and no position is in it.
        (&[Constant(0), last], 0),
        (&[Constant(0), LeftPlus(1)], 0),
        (&[LeftPlus(1), LeftPlus(1), LeftPlus(1)], 0),
        (&[last; 5], 0),
        (&[last; 8], 0),
        (&[last; 4], 1),
    ] {
        assert_eq!(both.flipped(&call(removals), &bodies, 5), Ok(found));
    }
}

#[test]
fn a_qcase_reads_behind_its_removals() {
    let mut both = Both::new();
    let split = |position, one| qcase(vec![Constant(1)], position, Statement::Skip, one);
    // Qubit 1 is flipped where qubit 3 is 1.
    let by_third = table(split(LeftPlus(0), not(1)), &[]);
    for word in every_word(3) {
        assert_eq!(both.run(&by_third, 3, word).value, word ^ (word >> 2));
    }
    let circuit = both.circuit(&by_third, 3).unwrap();
    assert_eq!(circuit, [1, 3, 0, 1, 0, 0, 0, 1, 1, 1, 3]);
    for (position, inside, number) in [
        (LeftPlus(0), LeftPlus(0), 12),
        (LeftPlus(0), LeftPlus(-1), 0),
        (LeftPlus(-1), LeftPlus(0), 0),
        (LeftPlus(-1), LeftPlus(-1), 12),
        (LeftPlus(-2), LeftPlus(0), 12),
    ] {
        let table = table(split(position, flip(&[], inside)), &[]);
        assert_eq!(both.verdict(&table, 3), number);
    }
}

#[test]
fn a_reversal_is_the_one_worked_out_by_hand() {
    let mut both = Both::new();
    assert_ne!(reversal(), reversal_by_hand());
    for n in 1..=32 {
        let circuit = both.circuit(&reversal(), n);
        assert_eq!(circuit, both.circuit(&reversal_by_hand(), n));
        if n > 10 {
            continue;
        }
        for word in every_word(n) {
            let reversed = word.reverse_bits() >> (64 - n);
            assert_eq!(both.run(&reversal(), n, word).value, reversed);
        }
        end_alike(&reversal(), n, &circuit.unwrap(), every_word(n));
    }
}

/// The program with another number where base 2 stands, in these fields.
fn without_base_2(
    program: &Program,
    fields: impl Fn(Field) -> bool,
    instead: fn(i16) -> Number,
) -> Program {
    let mut changed = program.clone();
    each_number(&mut changed, &mut |spot| match *spot.number {
        LeftPlus(constant) if fields(spot.field) => *spot.number = instead(constant),
        _ => {}
    });
    changed
}

/// The fields of a program in which base 2 stands.
fn fields_with_base_2(program: &Program) -> Vec<Field> {
    let mut fields = Vec::new();
    each_number(&mut program.clone(), &mut |spot| {
        if matches!(spot.number, LeftPlus(_)) {
            fields.push(spot.field);
        }
    });
    fields
}

/// A program with base 2 once in each field, accepted on 18 qubits and more.
fn once_in_each_field() -> Program {
    let last = LeftPlus(0);
    let [least, next] = [-17, -1].map(LeftPlus);
    let removals = || vec![last; 8];
    let compared = [
        Condition::Greater(last, next),
        Condition::AtLeast(last, last),
        Condition::Equal(least, least),
    ];
    let asked = compared.map(|condition| choose(condition, Statement::Skip, not(0)));
    let touched = qcase(removals(), last, flip(&removals(), next), Statement::Skip);
    let called = Statement::Call(removals(), 1);
    let main = asked.into_iter().fold(sequence(touched, called), sequence);
    let bodies = vec![Statement::Skip];
    Program { main, bodies }
}

/// Where the base byte of each number of base 2 stands in a program's table.
fn places_of_base_2(program: &Program) -> Vec<usize> {
    let table = encode(program);
    let changed = encode(&without_base_2(program, |_| true, Constant));
    let places = table.iter().zip(&changed).enumerate();
    let places = places.filter(|(_, (base, other))| base != other);
    places.map(|(place, _)| place).collect()
}

#[test]
fn base_3_is_refused_in_every_field() {
    let mut both = Both::new();
    let program = once_in_each_field();
    let mut fields = fields_with_base_2(&program);
    fields.sort_unstable();
    assert_eq!(fields, Field::all());
    let table = encode(&program);
    assert_eq!(both.verdict(&table, 18), 0);
    let places = places_of_base_2(&program);
    assert_eq!(places.len(), fields.len());
    for place in places {
        assert_eq!(table[place], 2);
        for base in [3, 4, 7, 128, 254, 255] {
            let mut wrong = table.clone();
            wrong[place] = base;
            assert_eq!(both.verdict(&wrong, 18), 6);
            assert_eq!(both.run(&wrong, 18, 0).number, 6);
            assert_eq!(both.circuit(&wrong, 18), Err(6));
            // The base is tested before its constant comes.
            assert_eq!(both.verdict(&wrong[..=place], 18), 6);
        }
        // Base 2 with no byte of its constant, and with one.
        for length in [place, place + 1, place + 2] {
            assert_eq!(both.verdict(&table[..length], 18), 1);
        }
    }
}

#[test]
fn a_comparison_takes_the_size_of_the_whole_list() {
    let mut both = Both::new();
    let mut numbers = Counts::<u32>::new();
    let mut compare = |condition: &dyn Fn(fn(i16) -> Number) -> Condition| {
        let [left, whole] =
            [LeftPlus, SizePlus].map(|base| choose(condition(base), Statement::Skip, not(0)));
        for n in [1, 2, 32] {
            let number = both.verdict(&table(left.clone(), &[]), n);
            assert_eq!(number, both.verdict(&table(whole.clone(), &[]), n));
            count(&mut numbers, number, true);
        }
    };
    for kind in [Condition::Greater, Condition::AtLeast, Condition::Equal] {
        for a in CONSTANTS {
            for b in CONSTANTS {
                compare(&|base| kind(base(a), Constant(b)));
                compare(&|base| kind(Constant(a), base(b)));
                compare(&|base| kind(base(a), SizePlus(b)));
                compare(&|base| kind(SizePlus(a), base(b)));
                compare(&|base| kind(base(a), base(b)));
            }
        }
    }
    assert_reached(&numbers, &[(0, 3_000), (12, 5_000)]);
}

#[test]
fn positions_at_the_limits_are_looked_up_alike() {
    let mut both = Both::new();
    let mut numbers = Counts::<u32>::new();
    let mut judge = |statement: Statement| {
        for n in [1, 2, 3, 32] {
            let number = both.verdict(&table(statement.clone(), &[not(1)]), n);
            count(&mut numbers, number, true);
        }
    };
    let others = [CONSTANTS.map(Constant), CONSTANTS.map(SizePlus)].concat();
    let lefts = CONSTANTS.map(LeftPlus);
    for left in lefts {
        judge(flip(&[], left));
        judge(Statement::Call(vec![left], 1));
        for &other in others.iter().chain(&lefts) {
            for (a, b) in [(left, other), (other, left)] {
                judge(flip(&[a], b));
                judge(flip(&[Constant(1), a], b));
                judge(Statement::Call(vec![a, b], 1));
                judge(qcase(vec![a], b, Statement::Skip, not(1)));
            }
        }
    }
    assert_reached(&numbers, &[(0, 4_000), (12, 8_000)]);
}

/// A number of qubits, mostly few.
fn qubits(random: &mut Random) -> u32 {
    let most = random.pick(&[6, 6, 6, 6, 12, 32]).unwrap();
    1 + random.below(most) as u32
}

#[test]
fn programs_worked_out_by_hand_have_the_same_circuits() {
    let mut both = Both::new();
    let mut random = Random::from_seed(101);
    let mut counts = Counts::new();
    for turn in 0..6_000 {
        let shape = [SMALL, MERGING, LARGE][turn % 3];
        let shape = Shape { slips: 0, ..shape };
        let n = qubits(&mut random);
        let by_hand = match turn % 2 {
            0 => program(&mut random, &shape),
            _ => program_from_the_end(&mut random, &shape, n),
        };
        let by_size = by_size_left(&mut random, by_hand.clone(), 100);
        let circuit = both.circuit(&encode(&by_size), n);
        assert_eq!(circuit, both.circuit(&encode(&by_hand), n));
        count(&mut counts, "accepted", circuit.is_ok());
        // There the constants differ too.
        let others = without_base_2(&by_size, |_| true, SizePlus) != by_hand;
        count(&mut counts, "behind removals", circuit.is_ok() && others);
    }
    let least = [("accepted", 5_000), ("behind removals", 2_000)];
    assert_reached(&counts, &least);
}

/// What was seen of random tables.
#[derive(Default)]
struct Seen {
    /// The tables of each class.
    classes: Counts,
    /// Compile's numbers, 0 where there is a circuit.
    numbers: Counts<u32>,
    /// The tables with base 2 in a field.
    fields: Counts<Field>,
    /// Those of them whose circuit shows that it is base 2; looked for until
    /// there are enough.
    telling: Counts<Field>,
}

/// So many telling circuits are enough for a field.
const ENOUGH: usize = 300;

impl Seen {
    /// Counts a program on n qubits and its circuit or refusal.
    fn count_program(&mut self, program: &Program, n: u32, given: &Result<Vec<u8>, u32>) {
        let mut fields = fields_with_base_2(program);
        fields.sort_unstable();
        fields.dedup();
        for field in fields {
            count(&mut self.fields, field, true);
            let known = self.telling.get(&field).copied().unwrap_or(0);
            let asked = given.is_ok() && known < ENOUGH;
            let tells = asked && compiled_otherwise(program, field, n) != *given;
            count(&mut self.telling, field, tells);
        }
    }

    /// Adds what was seen of other tables.
    fn add(&mut self, others: Seen) {
        add(&mut self.classes, others.classes);
        add(&mut self.numbers, others.numbers);
        add(&mut self.fields, others.fields);
        add(&mut self.telling, others.telling);
    }

    /// Asserts that there were enough tables of each sort.
    fn assert_enough(&self) {
        let classes = [
            ("every word", 24_000),
            ("runs", 550_000),
            ("changes a word", 15_000),
            ("plain look for faults", 8_500),
            ("calls", 22_000),
            ("mutual recursion", 2_800),
            ("branches that meet", 4_500),
            ("calls inside calls", 4_300),
            ("swaps", 1_500),
        ];
        assert_reached(&self.classes, &classes);
        let numbers = [
            (0, 30_000),
            (1, 400),
            (4, 700),
            (5, 1_000),
            (6, 1_200),
            (8, 40),
            (9, 400),
            (10, 4_500),
            (11, 400),
            (12, 4_500),
            (13, 1_500),
            (21, 18_000),
            (23, 5),
        ];
        assert_reached(&self.numbers, &numbers);
        let in_each = |least| Vec::from_iter(Field::all().into_iter().map(|field| (field, least)));
        assert_reached(&self.fields, &in_each(200));
        assert_reached(&self.telling, &in_each(40));
    }
}

/// What the second interpreter compiles with base 1 in a field in the place of
/// base 2, or with base 0 where base 1 means the same.
fn compiled_otherwise(program: &Program, field: Field, n: u32) -> Result<Vec<u8>, u32> {
    let instead = match field {
        Field::Removal(_, 1) | Field::A(6..) | Field::B(_) => Constant,
        Field::Removal(..) | Field::A(_) => SizePlus,
    };
    let changed = without_base_2(program, |of| of == field, instead);
    compile(&encode(&changed), n, LONGEST_CIRCUIT, SHORTEST_WORKSPACE)
}

/// A word, mostly below 2 to the power n.
fn word(random: &mut Random, n: u32) -> u64 {
    let bits = if random.chance(5) { 64 } else { n.min(32) };
    random.word() >> (64 - bits.max(1))
}

/// Asks for everything there is to a table, and counts it. Gives its circuit or
/// refusal.
fn compare(
    both: &mut Both,
    random: &mut Random,
    table: &[u8],
    n: u32,
    seen: &mut Seen,
) -> Result<Vec<u8>, u32> {
    let length = random.pick(&LENGTHS).unwrap();
    let otherwise = verdict_of_both(&mut both.workspace, table, n, length);
    count(&mut seen.numbers, 21, otherwise == 21);
    let judged = both.verdict(table, n);
    if n <= 6 && random.chance(25) {
        assert_eq!(judged, plain_verdict(table, n, SHORTEST_WORKSPACE));
        count(&mut seen.classes, "plain look for faults", true);
    }
    let given = both.circuit(table, n);
    let number = given.as_ref().err().copied().unwrap_or(0);
    count(&mut seen.numbers, number, true);
    // Where a circuit does not fit, a run could take for ever.
    if number < 22 {
        let ran = both.run(table, n, word(random, n));
        count(&mut seen.numbers, 13, ran.number == 13);
    }
    let Ok(circuit) = &given else {
        return given;
    };
    let (changed, runs) = if n <= 6 {
        end_alike(table, n, circuit, every_word(n))
    } else {
        end_alike(table, n, circuit, sampled(random, n, 4))
    };
    count(&mut seen.classes, "every word", n <= 6);
    count(&mut seen.classes, "changes a word", changed);
    *seen.classes.entry("runs").or_default() += runs;
    assert_read_back(table, n, circuit, &mut seen.classes);
    given
}

/// A number of qubits; now and then none that there can be.
fn any_qubits(random: &mut Random) -> u32 {
    match random.below(100) {
        0 => random.pick(&[0, 33, u32::MAX]).unwrap(),
        _ => qubits(random),
    }
}

/// Compares so many random tables: of ten, two are wild and one is damaged.
fn compare_tables(seed: u64, tables: usize) -> Seen {
    let mut both = Both::new();
    let mut random = Random::from_seed(seed);
    let mut seen = Seen::default();
    for turn in 0..tables {
        let n = any_qubits(&mut random);
        let program = match turn % 10 {
            0 | 1 => wild_program_by_size_left(&mut random),
            _ => program_by_size_left(&mut random, n),
        };
        let table = encode(&program);
        if turn % 10 == 2 {
            let table = damaged(&mut random, &table);
            let _ = compare(&mut both, &mut random, &table, n, &mut seen);
        } else {
            let circuit = compare(&mut both, &mut random, &table, n, &mut seen);
            seen.count_program(&program, n, &circuit);
        }
    }
    seen
}

#[test]
fn random_tables_are_answered_alike() {
    let mut seen = Seen::default();
    for half in halves([102, 103], |seed| compare_tables(seed, 25_000)) {
        seen.add(half);
    }
    seen.assert_enough();
}
