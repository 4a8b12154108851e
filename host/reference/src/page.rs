//! Document 02, S-1, "Circuits drawn on an 80-column page.": what the page
//! program prints, and the gates read off a page again.

use crate::circuit::{read_circuit, Action, Circuit, Control, Gate};

/// "right-aligned in four columns" and "each gate takes four columns".
const COLUMNS: usize = 4;
/// "so nineteen gates fill a line of 80".
const GATES_IN_A_BAND: usize = 19;

/// "X for a NOT's target".
const TARGET: u8 = b'X';
/// "S for each swapped wire".
const SWAPPED: u8 = b'S';
/// "+ or o for a control on 1 or 0", here on 1.
const ON_ONE: u8 = b'+';
/// "+ or o for a control on 1 or 0", here on 0.
const ON_ZERO: u8 = b'o';
/// "a bar (7C)".
const BAR: u8 = 0x7C;
/// "a dash (2D)".
const DASH: u8 = 0x2D;

/// "A program reads a circuit on standard input and prints its page, or 14
/// alone where it is not well formed." Every line ends with a newline.
#[must_use]
pub fn page(input: &[u8]) -> Vec<u8> {
    match read_circuit(input) {
        Ok(circuit) => circuit_page(&circuit),
        Err(refusal) => format!("{refusal}\n").into_bytes(),
    }
}

/// "Longer circuits go on in further bands, each with all wires and no line
/// between them. A circuit without gates is one band of wire numbers."
fn circuit_page(circuit: &Circuit) -> Vec<u8> {
    let last_wire = circuit.n.saturating_add(circuit.ancillas);
    if circuit.gates.is_empty() {
        return band(&[], last_wire);
    }
    let mut page = Vec::new();
    for gates in circuit.gates.chunks(GATES_IN_A_BAND) {
        page.extend(band(gates, last_wire));
    }
    page
}

/// "Each wire is a row": the rows of these gates, for every wire in order.
fn band(gates: &[Gate], last_wire: u8) -> Vec<u8> {
    let columns: Vec<Vec<u8>> = gates.iter().map(|gate| marks(gate, last_wire)).collect();
    let mut band = Vec::new();
    for (index, wire) in (1..=last_wire).enumerate() {
        let of_wire = columns.iter().map(|column| column[index]);
        band.extend(row(wire, of_wire));
    }
    band
}

/// "A row starts with its wire number, right-aligned in four columns"; then
/// "each gate takes four columns, a mark and three dashes."
fn row(wire: u8, marks: impl Iterator<Item = u8>) -> Vec<u8> {
    let mut row = format!("{wire:>COLUMNS$}").into_bytes();
    for mark in marks {
        row.extend([mark, DASH, DASH, DASH]);
    }
    row.push(b'\n');
    row
}

/// The marks of a gate on the wires from 1 to the last: its own, then "a bar
/// (7C) on other rows between a gate's outermost wires, else a dash (2D)."
fn marks(gate: &Gate, last_wire: u8) -> Vec<u8> {
    let wires = gate.wires();
    let (lowest, highest) = (wires.iter().min(), wires.iter().max());
    let mark = |wire| match own_mark(gate, wire) {
        Some(mark) => mark,
        None if lowest < Some(&wire) && Some(&wire) < highest => BAR,
        None => DASH,
    };
    (1..=last_wire).map(mark).collect()
}

/// "The mark is X for a NOT's target, S for each swapped wire, + or o for a
/// control on 1 or 0". None on other rows.
fn own_mark(gate: &Gate, wire: u8) -> Option<u8> {
    match gate.action {
        Action::Not { target } if wire == target => return Some(TARGET),
        Action::Swap { lower, upper } if wire == lower || wire == upper => return Some(SWAPPED),
        _ => {}
    }
    let control = gate.controls.iter().find(|control| control.wire == wire)?;
    Some(if control.asks { ON_ONE } else { ON_ZERO })
}

/// "Reading the marks off the page gives the gates that went in, in order."
/// Nothing but the page says how many wires and gates there are.
///
/// None where the bytes are not drawn as a page is: every column, wire number,
/// bar and dash must stand as above. How long the circuit of the gates would
/// be is not asked.
#[must_use]
pub fn gates_on(page: &[u8]) -> Option<Vec<Gate>> {
    let lines = page.strip_suffix(b"\n")?.split(|byte| *byte == b'\n');
    let rows = lines.map(read_row).collect::<Option<Vec<Row>>>()?;
    let bands: Vec<&[Row]> = rows.chunk_by(Row::goes_on).collect();
    if bands.windows(2).any(|pair| pair[0].len() != pair[1].len()) {
        return None;
    }
    let bands = bands.into_iter().map(read_band);
    let gates = bands.collect::<Option<Vec<Vec<Gate>>>>()?;
    filled_in_order(&gates).then(|| gates.concat())
}

/// A row as it is read: its wire number, and a mark for each gate of its band.
struct Row {
    wire: u8,
    marks: Vec<u8>,
}

impl Row {
    /// Whether the next row has the next wire. Where the wire numbers start
    /// again, so does a band.
    fn goes_on(&self, next: &Row) -> bool {
        self.wire.checked_add(1) == Some(next.wire)
    }
}

/// Reads a line: "its wire number", then "a mark and three dashes" for each
/// gate.
fn read_row(line: &[u8]) -> Option<Row> {
    let (number, gates) = line.split_at_checked(COLUMNS)?;
    let mark = |columns: &[u8]| match columns {
        [mark, DASH, DASH, DASH] => Some(*mark),
        _ => None,
    };
    Some(Row {
        wire: read_wire(number)?,
        marks: gates.chunks(COLUMNS).map(mark).collect::<Option<_>>()?,
    })
}

/// Reads a "wire number, right-aligned in four columns": the one that would
/// be printed so.
fn read_wire(columns: &[u8]) -> Option<u8> {
    let text = std::str::from_utf8(columns).ok()?;
    let wire = text.trim_start().parse::<u8>().ok()?;
    (format!("{wire:>COLUMNS$}") == text).then_some(wire)
}

/// Reads the gates of a band: its rows start with wire 1 and are of one
/// length, each mark's column is a gate.
fn read_band(band: &[Row]) -> Option<Vec<Gate>> {
    let first = band.first().filter(|row| row.wire == 1)?;
    let width = first.marks.len();
    if band.iter().any(|row| row.marks.len() != width) {
        return None;
    }
    let column = |index: usize| band.iter().map(|row| row.marks[index]).collect();
    let columns = (0..width).map(column);
    columns.map(|column: Vec<u8>| read_gate(&column)).collect()
}

/// "Longer circuits go on in further bands": every band before the last has
/// its nineteen gates, the last has no more, and none only where it is alone.
fn filled_in_order(bands: &[Vec<Gate>]) -> bool {
    let Some((last, before)) = bands.split_last() else {
        return false;
    };
    let full = |band: &Vec<Gate>| band.len() == GATES_IN_A_BAND;
    let goes_on = before.is_empty() || !last.is_empty();
    before.iter().all(full) && last.len() <= GATES_IN_A_BAND && goes_on
}

/// Reads a gate off its marks on the wires from 1 on, at most 255: one X or
/// two S, and its controls.
fn read_gate(marks: &[u8]) -> Option<Gate> {
    let (mut targets, mut swapped, mut controls) = (Vec::new(), Vec::new(), Vec::new());
    for (wire, mark) in (1..=u8::MAX).zip(marks) {
        match *mark {
            TARGET => targets.push(wire),
            SWAPPED => swapped.push(wire),
            ON_ONE => controls.push(Control { wire, asks: true }),
            ON_ZERO => controls.push(Control { wire, asks: false }),
            BAR | DASH => {}
            _ => return None,
        }
    }
    let action = match (targets.as_slice(), swapped.as_slice()) {
        (&[target], []) => Action::Not { target },
        ([], &[lower, upper]) => Action::Swap { lower, upper },
        _ => return None,
    };
    barred_between(marks).then_some(Gate { action, controls })
}

/// Whether the marks other than dashes are one piece, with bars only inside:
/// "a bar (7C) on other rows between a gate's outermost wires, else a dash
/// (2D)."
fn barred_between(marks: &[u8]) -> bool {
    let pieces = marks.split(|mark| *mark == DASH);
    let pieces: Vec<&[u8]> = pieces.filter(|piece| !piece.is_empty()).collect();
    match pieces.as_slice() {
        [piece] => !piece.starts_with(&[BAR]) && !piece.ends_with(&[BAR]),
        _ => false,
    }
}
