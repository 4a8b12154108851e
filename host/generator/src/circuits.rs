//! Random circuits, and circuits of given gates (document 01, "The circuit").

use crate::Random;

/// "it is at most 65,536 long".
const LONGEST: usize = 65_536;

/// The bytes of a circuit of these gates, with a true count. It is as well
/// formed as its numbers and gates are.
pub fn circuit_of<G: AsRef<[u8]>>(n: u8, ancillas: u8, gates: &[G]) -> Vec<u8> {
    let mut bytes = vec![1, n, ancillas];
    bytes.extend((gates.len() as u32).to_le_bytes());
    for gate in gates {
        bytes.extend(gate.as_ref());
    }
    bytes
}

/// The bytes of a well-formed circuit of random gates on `n` data wires and
/// `ancillas` ancillas, whose sum is 1 to 255. It has at most `gates` gates
/// and stays within 65,536 bytes.
pub fn circuit(random: &mut Random, n: u8, ancillas: u8, gates: usize) -> Vec<u8> {
    filled(random, n, ancillas, gates, gate)
}

/// As [`circuit`], but each gate names every wire.
pub fn crowded_circuit(random: &mut Random, n: u8, ancillas: u8, gates: usize) -> Vec<u8> {
    filled(random, n, ancillas, gates, crowded_gate)
}

/// The circuit with the longest listing that is known: NOTs of the last wire,
/// and a swap for the byte that they leave. A NOT has two bytes and, where gate
/// and wire have most digits, a line of twelve; a swap or a control gives less
/// for its bytes.
pub fn longest_listing() -> Vec<u8> {
    let mut gates: Vec<&[u8]> = vec![&[0, 255]; 32_764];
    gates[0] = &[4, 254, 255];
    circuit_of(32, 223, &gates)
}

/// Numbers of data wires and ancillas whose sum is at most 255: mostly few
/// ancillas, now and then any number or as many as there may be.
pub fn sizes(random: &mut Random) -> (u8, u8) {
    let n = 1 + random.below(32);
    let most = 255 - n;
    let ancillas = match random.below(10) {
        0 => most,
        1..4 => random.below(most + 1),
        _ => random.below(9),
    };
    (n as u8, ancillas as u8)
}

/// A circuit of gates made one after another, as many as asked for and fit.
fn filled(
    random: &mut Random,
    n: u8,
    ancillas: u8,
    most: usize,
    make: fn(&mut Random, u8) -> Vec<u8>,
) -> Vec<u8> {
    let last = n.saturating_add(ancillas).max(1);
    let mut gates = Vec::new();
    let mut length = circuit_of(n, ancillas, &gates).len();
    for _ in 0..most {
        let gate = make(random, last);
        length += gate.len();
        if length > LONGEST {
            break;
        }
        gates.push(gate);
    }
    circuit_of(n, ancillas, &gates)
}

/// A random gate on wires 1 to `last`: mostly with few controls, now and then
/// with as many as there are wires.
fn gate(random: &mut Random, last: u8) -> Vec<u8> {
    let most = if random.chance(90) {
        4
    } else {
        usize::from(last)
    };
    let controls = random.below(most.min(usize::from(last)) + 1);
    gate_with(random, last, controls)
}

/// A random gate that names every wire from 1 to `last`.
fn crowded_gate(random: &mut Random, last: u8) -> Vec<u8> {
    gate_with(random, last, usize::from(last))
}

/// A random gate on wires 1 to `last` with this many controls, or as many as
/// its own wires leave.
fn gate_with(random: &mut Random, last: u8, controls: usize) -> Vec<u8> {
    let mut wires: Vec<u8> = (1..=last).collect();
    random.shuffle(&mut wires);
    let own = 1 + usize::from(last > 1 && random.chance(30));
    let mut controlled = wires.split_off(own);
    controlled.truncate(controls);
    let (on_one, on_zero) = controlled.into_iter().partition(|_| random.chance(50));
    wires.sort_unstable();
    encode_gate(&wires, [on_one, on_zero])
}

/// "A gate is a map byte, the target wire, then: bit 0, count and wires
/// controlled on 1; bit 1, count and wires controlled on 0; bit 2, the second
/// wire of a swap."
fn encode_gate(own: &[u8], controlled: [Vec<u8>; 2]) -> Vec<u8> {
    let mut bytes = vec![0, own[0]];
    for (bit, mut wires) in [1, 2].into_iter().zip(controlled) {
        if !wires.is_empty() {
            wires.sort_unstable();
            bytes[0] |= bit;
            bytes.push(wires.len() as u8);
            bytes.extend(wires);
        }
    }
    if let Some(&second) = own.get(1) {
        bytes[0] |= 4;
        bytes.push(second);
    }
    bytes
}
