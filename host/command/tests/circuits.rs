//! Circuits as listings and as OpenQASM. The listings are the proved ones, of the
//! bytes that the proved compile gives.

#[path = "../../foq/tests/counts/mod.rs"]
mod counts;

use counts::{assert_reached, count, Counts};
use foq::{Refusal, LEAST_WORKSPACE, MOST_CIRCUIT};
use foq_command::qasm::qasm;
use foq_generator::programs::{program, wild_program, LARGE, MERGING, SMALL};
use foq_generator::tree::encode;
use foq_generator::{Random, PAIRS};
use foq_reference::{read_circuit, Action, Control, Gate};

/// The bytes of a table's circuit.
fn compiled(table: &[u8], n: u32) -> Result<Vec<u8>, Refusal> {
    let mut room = vec![0; MOST_CIRCUIT];
    let circuit = foq::compile(table, n, &mut room, &mut [0; LEAST_WORKSPACE])?;
    Ok(circuit.to_vec())
}

/// The listing of a table's circuit.
fn listed(table: &[u8], n: u32) -> Result<String, Refusal> {
    foq::circuit_list_to_string(&compiled(table, n)?)
}

/// Document 01 has the gates, document 02 the size in front of them.
#[test]
fn pairs_lists_as_in_the_documents() {
    let worked = "\
3 3 15
1 X 4
2 X 5 -1 -2 +4
3 X 6 +1 +2 +4
4 X 5 +6
5 X 3 +5
6 X 5 +6
7 X 6 +1 +2 +4
8 X 5 -1 -2 +4
9 X 4
";
    assert_eq!(listed(PAIRS, 3).unwrap(), worked);
}

#[test]
fn pairs_in_openqasm_is_the_example() {
    let example = include_str!("../../../examples/pairs.qasm");
    assert_eq!(qasm(&listed(PAIRS, 3).unwrap()).unwrap(), example);
}

#[test]
fn what_is_no_listing_has_no_program() {
    for text in [
        "",
        "14\n",
        "3 many 15\n",
        "3 3 15\n\n",
        "3 3 15\n1 Y 4\n",
        "3 3 15\n1 X 0\n",
        "3 3 15\n1 X 256\n",
        "3 3 15\n1 X 4 +\n",
    ] {
        assert_eq!(qasm(text), None, "{text}");
    }
}

/// The gates of an OpenQASM program on n qubits, read back line by line.
fn gates(program: &str, n: u8) -> Vec<Gate> {
    let gates = program.lines().filter(|line| {
        let first = line.split(['(', ' ']).next();
        matches!(first, Some("ctrl" | "negctrl" | "x" | "swap"))
    });
    gates.map(|line| gate(line, n)).collect()
}

/// The gate of a line.
fn gate(line: &str, n: u8) -> Gate {
    let mut modifiers: Vec<&str> = line.split(" @ ").collect();
    let (name, operands) = modifiers.pop().unwrap().split_once(' ').unwrap();
    let operands = operands.strip_suffix(';').unwrap().split(", ");
    let mut wires = operands.map(|operand| wire(operand, n));
    let mut controls = Vec::new();
    for modifier in modifiers {
        let (kind, count) = modifier.strip_suffix(')').unwrap().split_once('(').unwrap();
        let asks = ["negctrl", "ctrl"].iter().position(|known| *known == kind);
        let asks = asks.unwrap() == 1;
        for _ in 0..count.parse::<usize>().unwrap() {
            let wire = wires.next().unwrap();
            controls.push(Control { wire, asks });
        }
    }
    controls.sort_unstable_by_key(|control| control.wire);
    let action = match (name, &wires.collect::<Vec<u8>>()[..]) {
        ("x", &[target]) => Action::Not { target },
        ("swap", &[lower, upper]) => Action::Swap { lower, upper },
        other => panic!("{other:?}"),
    };
    Gate { action, controls }
}

/// The wire of an operand.
fn wire(operand: &str, n: u8) -> u8 {
    let (register, index) = operand.strip_suffix(']').unwrap().split_once('[').unwrap();
    let index: u8 = index.parse().unwrap();
    match register {
        "q" => 1 + index,
        "anc" => 1 + n + index,
        other => panic!("{other}"),
    }
}

/// Checks one table on n qubits and counts what it shows.
fn check(table: &[u8], n: u8, counts: &mut Counts) {
    let listed = listed(table, n.into());
    let lines = match &listed {
        Ok(listing) => listing.clone(),
        Err(refusal) => format!("{}\n", refusal.number()),
    };
    let expected = foq_reference::listing(&[&[n], table].concat());
    assert_eq!(lines.as_bytes(), expected);
    count(counts, "refused", listed.is_err());
    let Ok(listing) = listed else {
        return;
    };
    let circuit = read_circuit(&compiled(table, n.into()).unwrap()).unwrap();
    let program = qasm(&listing).unwrap();
    assert_eq!(gates(&program, n), circuit.gates);
    count(counts, "listed", true);
    count(counts, "no ancilla", circuit.ancillas == 0);
    let asks = |gate: &Gate, bit| gate.controls.iter().any(|control| control.asks == bit);
    let any = |shows: fn(&Gate) -> bool| circuit.gates.iter().any(shows);
    count(counts, "swap", any(Gate::is_swap));
    let both = circuit
        .gates
        .iter()
        .any(|gate| asks(gate, true) && asks(gate, false));
    count(counts, "gate with controls of both kinds", both);
}

#[test]
fn listings_are_the_second_interpreters_and_openqasm_has_their_gates() {
    let mut random = Random::from_seed(2);
    let mut counts = Counts::new();
    for _ in 0..700 {
        for shape in [SMALL, MERGING, LARGE] {
            let n = 1 + random.below(8) as u8;
            let careful = encode(&program(&mut random, &shape));
            let wild = encode(&wild_program(&mut random, &shape));
            check(&careful, n, &mut counts);
            check(&wild, n, &mut counts);
        }
    }
    for n in 0..=33 {
        check(PAIRS, n, &mut counts);
    }
    let least = [
        ("listed", 1_500),
        ("refused", 1_000),
        ("no ancilla", 100),
        ("swap", 100),
        ("gate with controls of both kinds", 500),
    ];
    assert_reached(&counts, &least);
}
