//! A circuit in OpenQASM 3: `x` and `swap` under `ctrl` and `negctrl`. It is
//! made from the circuit's listing, so that no circuit's bytes are read here.

/// The OpenQASM 3 program of a listing; none where this is no listing. Data
/// wires are `q`, ancillas `anc`; both count from 0, so that `q[i]` is bit i of
/// a word.
#[must_use]
pub fn qasm(listing: &str) -> Option<String> {
    let mut lines = listing.lines();
    let mut sizes = lines.next()?.split(' ').map_while(|size| size.parse().ok());
    let qubits: u8 = sizes.next()?;
    let ancillas = sizes.next()?;
    let mut program = "OPENQASM 3.0;\ninclude \"stdgates.inc\";\n".to_string();
    program += &format!("qubit[{qubits}] q;\n");
    if ancillas > 0 {
        program += &format!("qubit[{ancillas}] anc;\nreset anc;\n");
    }
    for line in lines {
        program += &statement(line, qubits)?;
    }
    Some(program)
}

/// The gate of a line. The qubits of the first modifier come first, the gate's
/// own last.
fn statement(line: &str, qubits: u8) -> Option<String> {
    let mut words = line.split(' ').skip(1);
    let name = match words.next()? {
        "X" => "x",
        "S" => "swap",
        _ => return None,
    };
    let (controls, own): (Vec<&str>, Vec<&str>) =
        words.partition(|word| word.starts_with(['+', '-']));
    let mut modifiers = String::new();
    let mut wires = Vec::new();
    for (modifier, sign) in [("ctrl", '+'), ("negctrl", '-')] {
        let asked = controls
            .iter()
            .filter_map(|control| control.strip_prefix(sign));
        let asked: Vec<&str> = asked.collect();
        if !asked.is_empty() {
            modifiers += &format!("{modifier}({}) @ ", asked.len());
        }
        wires.extend(asked);
    }
    wires.extend(own);
    let operands = wires.into_iter().map(|wire| operand(wire, qubits));
    let operands: Vec<String> = operands.collect::<Option<_>>()?;
    Some(format!("{modifiers}{name} {};\n", operands.join(", ")))
}

/// A wire: of the data, or behind it an ancilla.
fn operand(wire: &str, qubits: u8) -> Option<String> {
    let index = wire.parse::<u8>().ok()?.checked_sub(1)?;
    Some(match index.checked_sub(qubits) {
        None => format!("q[{index}]"),
        Some(ancilla) => format!("anc[{ancilla}]"),
    })
}
