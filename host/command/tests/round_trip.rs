//! Tables to text and back: every table that reads comes back byte for byte.

#[path = "../../foq/tests/counts/mod.rs"]
mod counts;

use counts::{assert_reached, count, Counts};
use foq_command::bytes::{decode, encode};
use foq_command::text::{parse, print};
use foq_command::tree::{Comparison, Condition, Number, Program, Qubit, Statement};
use foq_generator::damage::{damaged, single_changes, truncations};
use foq_generator::programs::{program, wild_program, LARGE, MERGING, SMALL};
use foq_generator::tables::{
    deepest, eight_removals, every_kind, full, leaning_left, leaning_right, negations,
    sixteen_in_turn, two_in_sequence, without_removal,
};
use foq_generator::tree::{choose, table};
use foq_generator::{Random, PAIRS};
use foq_reference::{read_table, verdict, SHORTEST_WORKSPACE};

/// The text of a program, which assembles to the program's table.
fn comes_back(program: &Program, table: &[u8]) -> String {
    let text = print(program);
    let again = parse(&text).unwrap_or_else(|error| panic!("{error}\n{text}"));
    assert_eq!(encode(&again), table, "{text}");
    text
}

/// Checks one table and counts what it is.
fn check(table: &[u8], counts: &mut Counts) {
    let Some(program) = decode(table) else {
        assert!(read_table(table).is_err(), "{table:02x?}");
        count(counts, "does not read", true);
        return;
    };
    assert!(read_table(table).is_ok(), "{table:02x?}");
    comes_back(&program, table);
    let accepted = verdict(table, 4, SHORTEST_WORKSPACE) == 0;
    count(counts, "reads", true);
    count(counts, "accepted on 4 qubits", accepted);
    count(counts, "reads but is refused", !accepted);
}

#[test]
fn random_tables_come_back() {
    let mut random = Random::from_seed(1);
    let mut counts = Counts::new();
    for _ in 0..4_000 {
        for shape in [SMALL, MERGING, LARGE] {
            let careful = foq_generator::tree::encode(&program(&mut random, &shape));
            let wild = foq_generator::tree::encode(&wild_program(&mut random, &shape));
            let spoilt = damaged(&mut random, &careful);
            for table in [careful, wild, spoilt] {
                check(&table, &mut counts);
            }
        }
    }
    let least = [
        ("reads", 25_000),
        ("accepted on 4 qubits", 10_000),
        ("reads but is refused", 8_000),
        ("does not read", 5_000),
    ];
    assert_reached(&counts, &least);
}

#[test]
fn tables_at_a_limit_come_back() {
    let mut counts = Counts::new();
    let skip = || foq_generator::tree::Statement::Skip;
    let mut tables = vec![
        PAIRS.to_vec(),
        every_kind(),
        eight_removals(),
        sixteen_in_turn(),
        two_in_sequence(),
        without_removal(),
        deepest(leaning_left),
        deepest(leaning_right),
    ];
    for depth in 30..=34 {
        tables.push(table(leaning_left(depth, skip()), &[]));
        tables.push(table(leaning_right(depth, skip()), &[]));
        tables.push(table(choose(negations(depth - 1), skip(), skip()), &[]));
    }
    // 255 records and one more.
    tables.push(table(full(8), &[]));
    tables.push(table(full(8), &[skip()]));
    for table in &tables {
        check(table, &mut counts);
    }
    assert_reached(&counts, &[("reads", 18), ("does not read", 7)]);
}

#[test]
fn what_does_not_read_is_told_apart() {
    let mut counts = Counts::new();
    for table in [PAIRS.to_vec(), every_kind(), eight_removals()] {
        for spoilt in truncations(&table).chain(single_changes(&table)) {
            check(&spoilt, &mut counts);
        }
    }
    assert_reached(&counts, &[("reads", 10_000), ("does not read", 10_000)]);
}

/// A statement with the two parts of each sequence turned round.
fn turned(statement: &Statement) -> Statement {
    let part = |part: &Statement| Box::new(turned(part));
    match statement {
        Statement::Sequence(first, second) => Statement::Sequence(part(second), part(first)),
        Statement::If(condition, yes, no) => Statement::If(condition.clone(), part(yes), part(no)),
        Statement::Qcase(qubit, zero, one) => {
            Statement::Qcase(qubit.clone(), part(zero), part(one))
        }
        Statement::Skip | Statement::Not(_) | Statement::Call { .. } => statement.clone(),
    }
}

/// Checks the inverse of a table, where it is accepted on 4 qubits: its text
/// comes back, and says the table's tree with its sequences turned round.
fn check_inverse(table: &[u8], counts: &mut Counts) {
    let Ok(inverse) = foq::inverse_to_vec(table, 4) else {
        count(counts, "refused on 4 qubits", true);
        return;
    };
    let there = decode(table).unwrap();
    let back = Program {
        main: turned(&there.main),
        bodies: there.bodies.iter().map(turned).collect(),
    };
    assert_eq!(decode(&inverse).as_ref(), Some(&back), "{table:02x?}");
    comes_back(&back, &inverse);
    count(counts, "inverted", true);
    count(counts, "inverted to another table", inverse != table);
}

#[test]
fn inverses_come_back() {
    let mut random = Random::from_seed(3);
    let mut counts = Counts::new();
    for _ in 0..2_000 {
        for shape in [SMALL, MERGING, LARGE] {
            let careful = foq_generator::tree::encode(&program(&mut random, &shape));
            let wild = foq_generator::tree::encode(&wild_program(&mut random, &shape));
            for table in [careful, wild] {
                check_inverse(&table, &mut counts);
            }
        }
    }
    let least = [
        ("inverted", 6_000),
        ("inverted to another table", 5_000),
        ("refused on 4 qubits", 5_000),
    ];
    assert_reached(&counts, &least);
}

#[test]
fn inverses_at_a_limit_come_back() {
    let mut counts = Counts::new();
    let tables = [
        every_kind(),
        sixteen_in_turn(),
        deepest(leaning_left),
        deepest(leaning_right),
    ];
    for table in &tables {
        check_inverse(table, &mut counts);
    }
    assert_reached(&counts, &[("inverted to another table", 4)]);
}

/// A comparison.
fn compare() -> Condition {
    Condition::Compare(
        Comparison::AtLeast,
        Number::SizePlus(-1),
        Number::Constant(-32_768),
    )
}

/// Every condition at most one record deeper than these.
fn deeper_conditions(conditions: &[Condition]) -> Vec<Condition> {
    let mut deeper = vec![compare()];
    for first in conditions {
        deeper.push(Condition::Not(Box::new(first.clone())));
        for second in conditions {
            let both = || (Box::new(first.clone()), Box::new(second.clone()));
            let ((a, b), (c, d)) = (both(), both());
            deeper.extend([Condition::And(a, b), Condition::Or(c, d)]);
        }
    }
    deeper
}

/// Every statement at most one record deeper than these, without conditions
/// other than a comparison.
fn deeper_statements(statements: &[Statement]) -> Vec<Statement> {
    let mut deeper = vec![Statement::Skip];
    let qubit = Qubit {
        removals: vec![Number::Constant(0)],
        position: Number::SizePlus(1),
    };
    for first in statements {
        for second in statements {
            let [a, b, c, d, e, f] = [first, second, first, second, first, second]
                .map(|statement| Box::new(statement.clone()));
            deeper.push(Statement::Sequence(a, b));
            deeper.push(Statement::If(compare(), c, d));
            deeper.push(Statement::Qcase(qubit.clone(), e, f));
        }
    }
    deeper
}

#[test]
fn every_small_tree_comes_back() {
    let conditions = (0..3).fold(vec![compare()], |known, _| deeper_conditions(&known));
    let statements = (0..3).fold(vec![Statement::Skip], |known, _| deeper_statements(&known));
    assert_eq!((conditions.len(), statements.len()), (2_776, 7_204));
    let ifs = conditions.into_iter().map(|condition| {
        let skip = || Box::new(Statement::Skip);
        Statement::If(condition, skip(), skip())
    });
    for main in statements.into_iter().chain(ifs) {
        let bodies = vec![Statement::Skip];
        let program = Program { main, bodies };
        assert_eq!(parse(&print(&program)), Ok(program));
    }
}

#[test]
fn bases_0_to_2_read() {
    for base in 0..=255 {
        let table = [1, 0, 2, 1, base, 1, 0];
        assert_eq!(decode(&table).is_some(), base <= 2, "base {base}");
    }
}

/// The numbers of a tree, each with the name of its field.
type Numbers<'a> = Vec<(&'static str, &'a mut Number)>;

/// The numbers of removals.
fn removed(removals: &mut [Number]) -> Numbers<'_> {
    removals
        .iter_mut()
        .map(|number| ("removal", number))
        .collect()
}

/// The numbers of what a NOT or qcase touches.
fn touched(qubit: &mut Qubit) -> Numbers<'_> {
    let mut numbers = removed(&mut qubit.removals);
    numbers.push(("position", &mut qubit.position));
    numbers
}

/// The numbers of a statement.
fn of_statement(statement: &mut Statement) -> Numbers<'_> {
    match statement {
        Statement::Skip => Numbers::new(),
        Statement::Not(qubit) => touched(qubit),
        Statement::Sequence(first, second) => {
            let mut numbers = of_statement(first);
            numbers.extend(of_statement(second));
            numbers
        }
        Statement::If(condition, yes, no) => {
            let mut numbers = of_condition(condition);
            numbers.extend(of_statement(yes));
            numbers.extend(of_statement(no));
            numbers
        }
        Statement::Qcase(qubit, zero, one) => {
            let mut numbers = touched(qubit);
            numbers.extend(of_statement(zero));
            numbers.extend(of_statement(one));
            numbers
        }
        Statement::Call { removals, .. } => removed(removals),
    }
}

/// The numbers of a condition.
fn of_condition(condition: &mut Condition) -> Numbers<'_> {
    match condition {
        Condition::Compare(_, a, b) => vec![("a of a comparison", a), ("b of a comparison", b)],
        Condition::And(first, second) | Condition::Or(first, second) => {
            let mut numbers = of_condition(first);
            numbers.extend(of_condition(second));
            numbers
        }
        Condition::Not(inner) => of_condition(inner),
    }
}

/// Draws the base of each number anew, and counts the fields with the size left.
fn turn_bases(random: &mut Random, program: &mut Program, counts: &mut Counts) {
    let bodies = program.bodies.iter_mut().flat_map(of_statement);
    for (field, number) in of_statement(&mut program.main).into_iter().chain(bodies) {
        let (Number::Constant(constant) | Number::SizePlus(constant) | Number::LeftPlus(constant)) =
            *number;
        let bases = [Number::Constant, Number::SizePlus, Number::LeftPlus];
        let base = random.below(bases.len());
        *number = bases[base](constant);
        count(counts, field, base == 2);
    }
}

#[test]
fn tables_with_the_size_left_come_back() {
    let mut random = Random::from_seed(2);
    let mut counts = Counts::new();
    for _ in 0..2_000 {
        for shape in [SMALL, MERGING, LARGE] {
            let careful = foq_generator::tree::encode(&program(&mut random, &shape));
            let wild = foq_generator::tree::encode(&wild_program(&mut random, &shape));
            for mut program in [careful, wild].iter().filter_map(|table| decode(table)) {
                turn_bases(&mut random, &mut program, &mut counts);
                let table = encode(&program);
                assert_eq!(decode(&table).as_ref(), Some(&program));
                let text = comes_back(&program, &table);
                count(&mut counts, "texts", true);
                count(&mut counts, "|s|", text.contains("|s|"));
                count(&mut counts, "|q - [", text.contains("|q - ["));
            }
        }
    }
    let least = [
        ("removal", 60_000),
        ("position", 30_000),
        ("a of a comparison", 15_000),
        ("b of a comparison", 15_000),
        ("texts", 10_000),
        ("|s|", 8_000),
        ("|q - [", 7_000),
    ];
    assert_reached(&counts, &least);
}

/// Numbers of every base.
const EVERY_BASE: [Number; 6] = [
    Number::Constant(0),
    Number::Constant(1),
    Number::SizePlus(0),
    Number::SizePlus(-1),
    Number::LeftPlus(0),
    Number::LeftPlus(-1),
];

/// Every row of at most so many removals.
fn rows_of_removals(most: usize) -> Vec<Vec<Number>> {
    let mut rows = vec![vec![]];
    let mut longest = rows.clone();
    for _ in 0..most {
        let longer = |row: &Vec<Number>| EVERY_BASE.map(|number| [&row[..], &[number]].concat());
        longest = longest.iter().flat_map(longer).collect();
        rows.extend(longest.clone());
    }
    rows
}

/// A program whose main statement is a NOT.
fn not(removals: &[Number], position: Number) -> Program {
    let removals = removals.to_vec();
    Program {
        main: Statement::Not(Qubit { removals, position }),
        bodies: vec![],
    }
}

#[test]
fn every_short_row_of_removals_comes_back() {
    let rows = rows_of_removals(4);
    assert_eq!(rows.len(), 1 + 6 + 36 + 216 + 1_296);
    for removals in rows {
        for position in EVERY_BASE {
            let program = not(&removals, position);
            assert_eq!(parse(&print(&program)), Ok(program));
        }
    }
}

#[test]
fn the_list_so_far_is_printed_where_it_does_not_nest() {
    let one = Number::Constant(1);
    let [last, next] = [0, -1].map(Number::SizePlus);
    let left = Number::LeftPlus(0);
    let prints = |removals: &[Number], position, text: &str| {
        let printed = print(&not(removals, position));
        assert_eq!(printed, format!(":: {text} *= NOT;\n"));
    };
    prints(&[], left, "q[|s|]");
    prints(&[one], left, "(q - [1])[|q - [1]|]");
    prints(&[one], Number::LeftPlus(-3), "(q - [1])[|q - [1]| - 3]");
    prints(
        &[last, next],
        left,
        "(q - [|q|] - [|q| - 1])[|q - [|q|] - [|q| - 1]|]",
    );
    prints(&[left], left, "(q - [|s|])[|s|]");
    prints(&[one, left], left, "(q - [1] - [|q - [1]|])[|s|]");
    prints(
        &[one, left, left],
        one,
        "(q - [1] - [|q - [1]|] - [|s|])[1]",
    );
    let compared = ":: if |s| > |s| + 1 then {\n  skip;\n} else {\n  skip;\n}\n";
    let printed = parse(compared).map(|program| print(&program));
    assert_eq!(printed.as_deref(), Ok(compared));
}
