//! Document 01, "The circuit": its bytes, its reader and its run.

use crate::refusal;

/// "it is at most 65,536 long".
pub const LONGEST_CIRCUIT: usize = 65_536;
/// The header's length: edition, n, ancilla byte and four bytes of gate count.
pub(crate) const HEADER: usize = 7;
/// "Edition byte 1".
const EDITION: u8 = 1;

/// "controls that ask a wire for 1 or 0".
#[derive(Clone, Copy, Debug, PartialEq, Eq)]
pub struct Control {
    /// The controlled wire.
    pub wire: u8,
    /// The bit asked for.
    pub asks: bool,
}

/// "Gates are NOT and swap".
#[derive(Clone, Copy, Debug, PartialEq, Eq)]
pub enum Action {
    /// Flips its target.
    Not {
        /// The target wire.
        target: u8,
    },
    /// Exchanges its two wires; "a swap's target is its lower wire".
    Swap {
        /// The target.
        lower: u8,
        /// "the second wire of a swap".
        upper: u8,
    },
}

/// A gate with its controls of both kinds in one ascending row.
#[derive(Clone, Debug, PartialEq, Eq)]
pub struct Gate {
    /// What the gate does.
    pub action: Action,
    /// Its controls, wires ascending.
    pub controls: Vec<Control>,
}

impl Gate {
    /// A NOT under these controls.
    pub(crate) fn not(target: u8, controls: &[Control]) -> Gate {
        Gate::new(Action::Not { target }, controls)
    }

    /// A swap of two wires, given in either order, under these controls.
    pub(crate) fn swap(one: u8, other: u8, controls: &[Control]) -> Gate {
        let (lower, upper) = (one.min(other), one.max(other));
        Gate::new(Action::Swap { lower, upper }, controls)
    }

    /// A gate with its controls put in ascending order.
    fn new(action: Action, controls: &[Control]) -> Gate {
        let mut controls = controls.to_vec();
        controls.sort_unstable_by_key(|control| control.wire);
        Gate { action, controls }
    }

    /// Whether the gate is a swap.
    #[must_use]
    pub fn is_swap(&self) -> bool {
        matches!(self.action, Action::Swap { .. })
    }

    /// Every wire of the gate: the target, the second wire, the controls.
    #[must_use]
    pub fn wires(&self) -> Vec<u8> {
        let mut wires = match self.action {
            Action::Not { target } => vec![target],
            Action::Swap { lower, upper } => vec![lower, upper],
        };
        wires.extend(self.controls.iter().map(|control| control.wire));
        wires
    }

    /// The wires controlled on this bit, ascending.
    fn asking(&self, bit: bool) -> Vec<u8> {
        let asking = self.controls.iter().filter(|control| control.asks == bit);
        asking.map(|control| control.wire).collect()
    }

    /// The number of bytes of the gate in a circuit.
    pub(crate) fn length(&self) -> usize {
        self.bytes().len()
    }

    /// "A gate is a map byte, the target wire, then: bit 0, count and wires
    /// controlled on 1; bit 1, count and wires controlled on 0; bit 2, the
    /// second wire of a swap."
    fn bytes(&self) -> Vec<u8> {
        let (target, second) = match self.action {
            Action::Not { target } => (target, None),
            Action::Swap { lower, upper } => (lower, Some(upper)),
        };
        let mut bytes = vec![0, target];
        for (map, bit) in [(ON_ONE, true), (ON_ZERO, false)] {
            let wires = self.asking(bit);
            if !wires.is_empty() {
                bytes[0] |= map;
                bytes.push(wires.len() as u8);
                bytes.extend(wires);
            }
        }
        if let Some(second) = second {
            bytes[0] |= SECOND;
            bytes.push(second);
        }
        bytes
    }
}

/// "bit 0, count and wires controlled on 1".
const ON_ONE: u8 = 1;
/// "bit 1, count and wires controlled on 0".
const ON_ZERO: u8 = 2;
/// "bit 2, the second wire of a swap".
const SECOND: u8 = 4;

/// A well-formed circuit.
#[derive(Clone, Debug, PartialEq, Eq)]
pub struct Circuit {
    /// The number of data wires, 1 to 32.
    pub n: u8,
    /// The ancilla byte.
    pub ancillas: u8,
    /// The gates, in order; the header has their number, the "gate count".
    pub gates: Vec<Gate>,
}

/// "Edition byte 1, n, ancilla byte (highest number of ancillas in use), gate
/// count in 4 bytes little-endian, then gates."
#[must_use]
pub fn circuit_bytes(circuit: &Circuit) -> Vec<u8> {
    let mut bytes = vec![EDITION, circuit.n, circuit.ancillas];
    bytes.extend((circuit.gates.len() as u32).to_le_bytes());
    for gate in &circuit.gates {
        bytes.extend(gate.bytes());
    }
    bytes
}

/// Reads a circuit.
///
/// # Errors
/// "14 circuit not well formed".
pub fn read_circuit(bytes: &[u8]) -> Result<Circuit, u32> {
    well_formed(bytes).ok_or(refusal::CIRCUIT)
}

/// "A circuit is well formed if this holds, n is 1 to 32, no other map bit
/// stands, wires are 1 to n plus ancillas, that sum is at most 255, the count
/// is true, no byte is left, and it is at most 65,536 long." None otherwise.
fn well_formed(bytes: &[u8]) -> Option<Circuit> {
    let [EDITION, n @ 1..=32, ancillas, c0, c1, c2, c3, rest @ ..] = bytes else {
        return None;
    };
    if bytes.len() > LONGEST_CIRCUIT {
        return None;
    }
    let last_wire = n.checked_add(*ancillas)?;
    let mut reader = GateReader { rest, last_wire };
    let mut gates = Vec::new();
    for _ in 0..u32::from_le_bytes([*c0, *c1, *c2, *c3]) {
        gates.push(reader.gate()?);
    }
    reader.rest.is_empty().then_some(Circuit {
        n: *n,
        ancillas: *ancillas,
        gates,
    })
}

/// The bytes of the gates still to be read, and the last wire they may name.
struct GateReader<'a> {
    rest: &'a [u8],
    last_wire: u8,
}

impl GateReader<'_> {
    /// The next byte.
    fn byte(&mut self) -> Option<u8> {
        let (&byte, rest) = self.rest.split_first()?;
        self.rest = rest;
        Some(byte)
    }

    /// A wire: "wires are 1 to n plus ancillas".
    fn wire(&mut self) -> Option<u8> {
        self.byte()
            .filter(|wire| (1..=self.last_wire).contains(wire))
    }

    /// "Counts are at least 1, wires ascend".
    fn controlled(&mut self) -> Option<Vec<u8>> {
        let count = self.byte().filter(|&count| count >= 1)?;
        let mut wires = Vec::new();
        for _ in 0..count {
            wires.push(self.wire()?);
        }
        wires.is_sorted_by(|one, next| one < next).then_some(wires)
    }

    /// One gate: "no wire occurs twice in a gate, a swap's target is its lower
    /// wire".
    fn gate(&mut self) -> Option<Gate> {
        let map = self
            .byte()
            .filter(|map| map & !(ON_ONE | ON_ZERO | SECOND) == 0)?;
        let target = self.wire()?;
        let mut controls = Vec::new();
        for (bit, asks) in [(ON_ONE, true), (ON_ZERO, false)] {
            if map & bit != 0 {
                let wires = self.controlled()?;
                controls.extend(wires.into_iter().map(|wire| Control { wire, asks }));
            }
        }
        let action = if map & SECOND == 0 {
            Action::Not { target }
        } else {
            let upper = self.wire().filter(|&upper| target < upper)?;
            let lower = target;
            Action::Swap { lower, upper }
        };
        let gate = Gate::new(action, &controls);
        let mut wires = gate.wires();
        wires.sort_unstable();
        wires.is_sorted_by(|one, next| one < next).then_some(gate)
    }
}

/// "The wires of a running circuit are one block of 32 bytes beside n and the
/// ancilla count."
#[derive(Clone, Copy, Debug, PartialEq, Eq)]
pub struct Block {
    /// The bits of the wires; "bits past the last wire are zero".
    pub wires: [u8; 32],
    /// The number of data wires.
    pub n: u8,
    /// The ancilla count.
    pub ancillas: u8,
}

impl Block {
    /// "A circuit run starts with a data word and zero ancillas".
    fn start(circuit: &Circuit, word: u64) -> Block {
        let mut block = Block {
            wires: [0; 32],
            n: circuit.n,
            ancillas: circuit.ancillas,
        };
        for (byte, of_word) in block.wires.iter_mut().zip(word.to_le_bytes()) {
            *byte = of_word;
        }
        block
    }

    /// "Wire w is bit (w − 1) mod 8 of byte (w − 1) div 8, counted from 0 and
    /// from the lowest bit".
    #[must_use]
    pub fn holds(&self, wire: u8) -> bool {
        match wire.checked_sub(1) {
            Some(index) => self.wires[usize::from(index / 8)] >> (index % 8) & 1 == 1,
            None => false,
        }
    }

    /// Changes the bit of a wire to the other one.
    fn flip(&mut self, wire: u8) {
        if let Some(index) = wire.checked_sub(1) {
            self.wires[usize::from(index / 8)] ^= 1 << (index % 8);
        }
    }

    /// "where every controlled wire holds the bit asked for, a NOT flips its
    /// target and a swap exchanges its two wires; otherwise the gate changes
    /// nothing."
    fn act(&mut self, gate: &Gate) {
        let asked = |control: &Control| self.holds(control.wire) == control.asks;
        if !gate.controls.iter().all(asked) {
            return;
        }
        match gate.action {
            Action::Not { target } => self.flip(target),
            Action::Swap { lower, upper } => {
                if self.holds(lower) != self.holds(upper) {
                    self.flip(lower);
                    self.flip(upper);
                }
            }
        }
    }
}

impl Circuit {
    /// "Gates act in order" on a data word; "gives the whole block".
    ///
    /// # Errors
    /// "13 a start word with a bit at n or above".
    pub fn run(&self, word: u64) -> Result<Block, u32> {
        start_word(self.n, word)?;
        let mut block = Block::start(self, word);
        for gate in &self.gates {
            block.act(gate);
        }
        Ok(block)
    }
}

/// "13 a start word with a bit at n or above"; n is at most 32.
pub(crate) fn start_word(n: u8, word: u64) -> Result<(), u32> {
    if word >> n != 0 {
        return Err(refusal::START_WORD);
    }
    Ok(())
}

/// Reads a circuit and runs it on a data word.
///
/// # Errors
/// "Reading a circuit gives 14 before 13."
pub fn circuit_run(bytes: &[u8], word: u64) -> Result<Block, u32> {
    read_circuit(bytes)?.run(word)
}
