//! Circuits that are drawn and listed, and bytes that are mostly none.

// Each test uses a part of this.
#![allow(dead_code)]

use foq_generator::circuits::{circuit, circuit_of, crowded_circuit, sizes};
use foq_generator::damage::truncations;
use foq_generator::{Random, PAIRS};
use foq_reference::{compile, read_circuit, Circuit, LONGEST_CIRCUIT, SHORTEST_WORKSPACE};

/// "nineteen gates fill a line of 80".
pub const GATES_IN_A_BAND: usize = 19;

/// The circuit of PAIRS.
pub fn pairs(n: u32) -> Vec<u8> {
    compile(PAIRS, n, LONGEST_CIRCUIT, SHORTEST_WORKSPACE).unwrap()
}

/// A number of gates: of up to three bands, or about some full bands; now and
/// then none or several hundred.
pub fn gate_count(random: &mut Random) -> usize {
    let full = GATES_IN_A_BAND * (1 + random.below(4));
    match random.below(20) {
        0 => 0,
        1 => 100 + random.below(400),
        2..4 => full - 1,
        4..7 => full,
        7..9 => full + 1,
        _ => random.below(58),
    }
}

/// A random well-formed circuit, in one of ten with every wire in each gate.
pub fn any_circuit(random: &mut Random) -> Vec<u8> {
    let (n, ancillas) = sizes(random);
    let gates = gate_count(random);
    let make = if random.chance(10) {
        crowded_circuit
    } else {
        circuit
    };
    make(random, n, ancillas, gates)
}

/// Circuits of few bytes: PAIRS on three qubits, no gate, one band and two.
pub fn short_circuits(random: &mut Random) -> Vec<Vec<u8>> {
    let random_ones = [0, 1, 5, 21].map(|gates| circuit(random, 3, 2, gates));
    [vec![pairs(3)], random_ones.to_vec()].concat()
}

/// The number of all wires.
pub fn wires(circuit: &Circuit) -> usize {
    usize::from(circuit.n) + usize::from(circuit.ancillas)
}

/// Beginnings of circuits, and circuits with a byte behind them: none of them is
/// well formed.
pub fn cut_and_longer(random: &mut Random) -> impl Iterator<Item = Vec<u8>> {
    let mut circuits = short_circuits(random);
    circuits.push(pairs(32));
    circuits.extend((0..20).map(|_| circuit(random, 5, 40, 45)));
    circuits.into_iter().flat_map(|bytes| {
        let cut: Vec<Vec<u8>> = truncations(&bytes).collect();
        let longer = (0..=255).map(move |byte| [&bytes[..], &[byte]].concat());
        cut.into_iter().chain(longer)
    })
}

/// A random circuit, each time with another gate count that is not true.
pub fn with_false_counts(random: &mut Random) -> [Vec<u8>; 6] {
    let bytes = any_circuit(random);
    let gates = read_circuit(&bytes).unwrap().gates.len() as u32;
    let counts = [
        gates.wrapping_sub(1),
        gates + 1,
        gates + 19,
        gates ^ 1 << 8,
        gates ^ 1 << 31,
        !gates,
    ];
    counts.map(|count| {
        let mut bytes = bytes.clone();
        bytes[3..7].copy_from_slice(&count.to_le_bytes());
        bytes
    })
}

/// Bytes at random, small ones or any, mostly behind the header of a circuit on
/// up to 255 wires.
pub fn any_bytes(random: &mut Random) -> Vec<u8> {
    let length = random.below(60);
    let most = random.pick(&[4, 8, 255]).unwrap();
    let mut bytes: Vec<u8> = (0..length).map(|_| random.byte() % most).collect();
    if random.chance(80) {
        let (n, ancillas) = sizes(random);
        let gates = random.below(1 + length / 2) as u8;
        bytes.splice(..0, [1, n, ancillas, gates, 0, 0, 0]);
    }
    bytes
}

/// A circuit of exactly this length on `n` data wires and `ancillas` ancillas,
/// two wires at least: NOTs of 2 bytes, and where that leaves one byte a swap of
/// the first wire and the last.
pub fn long_circuit(length: usize, n: u8, ancillas: u8) -> Vec<u8> {
    let gates = length - 7;
    let swap = [4, 1, n + ancillas];
    let mut rows: Vec<&[u8]> = vec![&[0, 1]; gates / 2];
    if gates % 2 == 1 {
        rows[0] = &swap;
    }
    circuit_of(n, ancillas, &rows)
}
