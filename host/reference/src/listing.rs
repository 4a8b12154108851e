//! Document 01, "Worked programs": what the listing program prints, with the
//! size of document 02, S-4, "Published circuit size."

use crate::circuit::{read_circuit, Action, Circuit, Control, Gate, LONGEST_CIRCUIT};
use crate::operations::{compile, SHORTEST_WORKSPACE};
use crate::refusal;

/// "The listing program reads the byte n and then a table on standard input,
/// and lends compile a room of 65,536 bytes. Empty input counts as n = 0. A
/// refusal prints its number alone." Every line ends with a newline.
#[must_use]
pub fn listing(input: &[u8]) -> Vec<u8> {
    let (n, table) = match input.split_first() {
        Some((&n, table)) => (n, table),
        None => (0, input),
    };
    let bytes = compile(table, u32::from(n), LONGEST_CIRCUIT, SHORTEST_WORKSPACE);
    let lines = match bytes.and_then(|bytes| read_circuit(&bytes)) {
        Ok(circuit) => circuit_lines(&circuit),
        Err(refusal) => format!("{refusal}\n"),
    };
    lines.into_bytes()
}

/// Lists a circuit given as its bytes: the lines that the listing program
/// prints for a table that compiles to them, for a text of this many bytes.
/// A listing can be longer than any circuit; no length of the text is too
/// great.
///
/// # Errors
/// "14 circuit not well formed", then 23 where the text is shorter than the
/// whole listing.
pub fn circuit_list(bytes: &[u8], room: usize) -> Result<Vec<u8>, u32> {
    let lines = circuit_lines(&read_circuit(bytes)?);
    if lines.len() > room {
        return Err(refusal::ROOM);
    }
    Ok(lines.into_bytes())
}

/// "Otherwise the first line is n, ancillas, size"; then the gates, numbered
/// from 1.
fn circuit_lines(circuit: &Circuit) -> String {
    let Circuit { n, ancillas, gates } = circuit;
    let mut lines = format!("{n} {ancillas} {}\n", size(circuit));
    for (number, gate) in (1..).zip(gates) {
        lines.push_str(&gate_line(number, gate));
    }
    lines
}

/// "The size on the listing's first line becomes gates plus data wires plus
/// ancillas". In source 000, just before definition 8: "The size #C of a
/// circuit C is equal to the number of its gates and wires."
fn size(circuit: &Circuit) -> usize {
    circuit.gates.len() + usize::from(circuit.n) + usize::from(circuit.ancillas)
}

/// "then gate number, X or S, target (for a swap both, lower first), controls
/// ascending (+ on 1, − on 0, printed as a hyphen)."
fn gate_line(number: usize, gate: &Gate) -> String {
    let mut line = match gate.action {
        Action::Not { target } => format!("{number} X {target}"),
        Action::Swap { lower, upper } => format!("{number} S {lower} {upper}"),
    };
    for Control { wire, asks } in &gate.controls {
        let sign = if *asks { '+' } else { '-' };
        line.push_str(&format!(" {sign}{wire}"));
    }
    line.push('\n');
    line
}
