//! The constants of `foq.h` are those of the definitions that the proofs cite,
//! of the bindings, and of the bytes that tables and circuits are made of.

use foq::{Refusal, BLOCK_LENGTH, LEAST_WORKSPACE, MOST_BAND, MOST_CIRCUIT, MOST_LISTING};
use foq_generator::tree::{choose, table, Condition, Number, Statement};
use foq_reference::{circuit_bytes, Action, Circuit, Control, Gate};
use std::collections::BTreeMap;

const HEADER: &str = include_str!("../../include/foq.h");
const DEFINITIONS: &str = include_str!("../../../crates/model/specs/Limits.antt");

type Constants = BTreeMap<String, u32>;

/// Every `#define FOQ_NAME NUMBERu` of the header, without `FOQ_`.
fn defined() -> Constants {
    let lines = HEADER.lines();
    let named = lines.filter_map(|line| line.strip_prefix("#define FOQ_"));
    let constants = named.filter_map(|rest| {
        let mut words = rest.split_whitespace();
        let name = words.next()?.to_string();
        let number = words.next()?.strip_suffix('u')?.parse().ok()?;
        Some((name, number))
    });
    constants.collect()
}

/// The constants of the header whose name begins so, without that.
fn defined_as(beginning: &str) -> Constants {
    let constants = defined().into_iter().filter_map(|(name, number)| {
        let rest = name.strip_prefix(beginning)?;
        Some((rest.to_string(), number))
    });
    constants.collect()
}

/// Every `someName = NUMBER` of the definitions, as `SOME_NAME`.
fn proved() -> Constants {
    let lines = DEFINITIONS.lines();
    let equations = lines.filter_map(|line| line.split_once(" = "));
    let constants = equations.filter_map(|(name, number)| {
        let number = number.trim().parse().ok()?;
        Some((in_capitals(name), number))
    });
    constants.collect()
}

fn in_capitals(name: &str) -> String {
    let mut capitals = String::new();
    for letter in name.chars() {
        if letter.is_ascii_uppercase() {
            capitals.push('_');
        }
        capitals.push(letter.to_ascii_uppercase());
    }
    capitals
}

#[test]
fn the_header_has_the_constants_of_the_definitions() {
    let mut limits = defined();
    let others = ["KIND_", "MAP_", "BASE_", "GATE_", "ENOUGH_STACK"];
    limits.retain(|name, _| !others.iter().any(|other| name.starts_with(other)));
    assert_eq!(limits, proved());
    assert_eq!(limits.len(), 33);
}

#[test]
fn the_bindings_have_the_constants_of_the_header() {
    let defined = defined();
    for (name, refusal) in Refusal::ALL {
        assert_eq!(defined[*name], refusal.number());
    }
    assert_eq!(Refusal::ALL.len(), 18);
    for (name, length) in [
        ("BLOCK_LENGTH", BLOCK_LENGTH),
        ("LEAST_WORKSPACE", LEAST_WORKSPACE),
        ("MOST_BAND", MOST_BAND),
        ("MOST_CIRCUIT", MOST_CIRCUIT),
        ("MOST_LISTING", MOST_LISTING),
    ] {
        assert_eq!(defined[name], length as u32);
    }
}

/// Asserts that a record begins with the map of these fields and this kind.
fn assert_record(record: &[u8], fields: &[&str], kind: &str) {
    let maps = defined_as("MAP_");
    let map: u32 = fields.iter().map(|field| maps[*field]).sum();
    let kind = defined_as("KIND_")[kind];
    assert_eq!([record[0], record[1]].map(u32::from), [map, kind]);
}

#[test]
fn the_header_has_the_kinds_and_maps_of_statements() {
    let one = Number::Constant(1);
    let skip = || Box::new(Statement::Skip);
    let yes = Condition::Equal(one, one);
    let touching: &[&str] = &["REMOVALS", "A"];
    let calling: &[&str] = &["REMOVALS", "PROCEDURE"];
    for (kind, fields, statement) in [
        ("SKIP", &[][..], Statement::Skip),
        ("NOT", touching, Statement::Not(vec![one], one)),
        ("SEQUENCE", &[], Statement::Sequence(skip(), skip())),
        ("IF", &[], Statement::If(yes, skip(), skip())),
        (
            "QCASE",
            touching,
            Statement::Qcase(vec![one], one, skip(), skip()),
        ),
        ("CALL", calling, Statement::Call(vec![one], 1)),
    ] {
        assert_record(&table(statement, &[])[2..], fields, kind);
    }
}

#[test]
fn the_header_has_the_kinds_and_maps_of_conditions() {
    let one = Number::Constant(1);
    let yes = || Box::new(Condition::Equal(one, one));
    let comparing: &[&str] = &["A", "B"];
    for (kind, fields, condition) in [
        ("GREATER", comparing, Condition::Greater(one, one)),
        ("AT_LEAST", comparing, Condition::AtLeast(one, one)),
        ("EQUAL", comparing, Condition::Equal(one, one)),
        ("AND", &[], Condition::And(yes(), yes())),
        ("OR", &[], Condition::Or(yes(), yes())),
        ("NEGATION", &[], Condition::Not(yes())),
    ] {
        let main = choose(condition, Statement::Skip, Statement::Skip);
        assert_record(&table(main, &[])[4..], fields, kind);
    }
    assert_eq!(defined_as("KIND_").len(), 12);
    assert_eq!(defined_as("MAP_").len(), 4);
}

#[test]
fn the_header_has_the_bases_of_numbers() {
    let bases = defined_as("BASE_");
    for (base, number) in [
        ("CONSTANT", Number::Constant(0)),
        ("SIZE", Number::SizePlus(0)),
        ("LEFT", Number::LeftPlus(0)),
    ] {
        let bytes = table(Statement::Not(vec![], number), &[]);
        assert_eq!(u32::from(bytes[4]), bases[base]);
    }
    assert_eq!(bases.len(), 3);
}

#[test]
fn the_header_has_the_maps_of_gates() {
    let control = |asks| Control { wire: 3, asks };
    let target = Action::Not { target: 1 };
    let swap = Action::Swap { lower: 1, upper: 2 };
    let maps = defined_as("GATE_");
    for (name, action, controls) in [
        ("ON_ONE", target, vec![control(true)]),
        ("ON_ZERO", target, vec![control(false)]),
        ("SWAP", swap, vec![]),
    ] {
        let gates = vec![Gate { action, controls }];
        let (n, ancillas) = (3, 0);
        let bytes = circuit_bytes(&Circuit { n, ancillas, gates });
        assert_eq!(u32::from(bytes[7]), maps[name]);
    }
    assert_eq!(maps.len(), 3);
}

#[test]
fn a_refusal_says_its_number_and_its_words() {
    let refusal = foq::circuit_read(&[]).unwrap_err();
    assert_eq!(refusal, Refusal::NOT_WELL_FORMED);
    let said = "refusal 14: the circuit is not well formed";
    assert_eq!(refusal.to_string(), said);
}
