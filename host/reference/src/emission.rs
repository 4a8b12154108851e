//! Document 01, "Emission": the gates of a program and its ancillas, with the
//! order of bodies that document 02 asks for in S-6.

use crate::calls::Calls;
use crate::circuit::{Control, Gate, HEADER, LONGEST_CIRCUIT};
use crate::meaning::{holds, main_list, remaining, touched};
use crate::operations;
use crate::refusal;
use crate::table::{Program, Statement};
use std::cmp::Reverse;

/// What an emission gives.
#[derive(Clone, Debug, PartialEq, Eq)]
pub struct Emission {
    /// "Wires 1 to n are data".
    pub n: u8,
    /// "highest number of ancillas in use".
    pub ancillas: u8,
    /// The gates in the order emitted.
    pub gates: Vec<Gate>,
    /// What kinds of steps occurred, for tests that must not run empty.
    pub tally: Tally,
}

/// Counts of steps of an emission. They decide nothing.
#[derive(Clone, Copy, Debug, Default, PartialEq, Eq)]
pub struct Tally {
    /// Chains started.
    pub chains: usize,
    /// Chains started in the left part of a body of another chain.
    pub nested_left: usize,
    /// Chains started in the right part of a body of another chain.
    pub nested_right: usize,
    /// Chains with bodies of more than one procedure.
    pub mutual: usize,
    /// The most bodies of one list length in a chain.
    pub most_of_one_length: usize,
    /// Chains in which bodies of one length do not go in the order called.
    pub reordered: usize,
    /// Later calls, each with an entry ancilla.
    pub entries: usize,
    /// Later calls to bodies beside which there are others of their length.
    pub entries_of_one_length: usize,
    /// Swaps placed before left parts (as many come after right parts).
    pub swaps: usize,
}

/// The emission of a program on n qubits, into a circuit of at most `room`
/// bytes ("room past 65,536 bytes is not used"). It stops at the first step
/// that does not fit, so an enormous emission ends early.
///
/// # Errors
/// 9 to 12 for a program that is not accepted on n qubits; "Then 23 for the
/// header, then 22 or 23 at the first ancilla or gate that does not fit."
pub fn emission(program: &Program, n: u32, room: usize) -> Result<Emission, u32> {
    let n = operations::qubits(n)?;
    operations::judge(program, n)?;
    emit(program, n, room)
}

/// The emission of an accepted program.
pub(crate) fn emit(program: &Program, n: u8, room: usize) -> Result<Emission, u32> {
    let room = room.min(LONGEST_CIRCUIT);
    if room < HEADER {
        return Err(refusal::ROOM);
    }
    let mut emitter = Emitter {
        program,
        calls: Calls::of(program),
        n,
        room,
        length: HEADER,
        in_use: 0,
        most_in_use: 0,
        gates: Vec::new(),
        part: None,
        tally: Tally::default(),
    };
    let main = Place {
        procedure: 0,
        list: main_list(n),
        controls: Vec::new(),
    };
    emitter.whole(&program.main, &main)?;
    Ok(Emission {
        n,
        ancillas: emitter.most_in_use,
        gates: emitter.gates,
        tally: emitter.tally,
    })
}

/// Where a statement stands: its procedure, its whole list, and "the controls
/// now in force: the body's ancilla, if any, and the qcase qubits around it in
/// that body".
#[derive(Clone)]
struct Place {
    procedure: usize,
    list: Vec<u8>,
    controls: Vec<Control>,
}

impl Place {
    /// The place of a qcase's branch: one more control.
    fn under(&self, wire: u8, asks: bool) -> Place {
        let mut inner = self.clone();
        inner.controls.push(Control { wire, asks });
        inner
    }
}

/// "A chain has one body per pair (procedure, list length)."
struct Body {
    procedure: usize,
    first_list: Vec<u8>,
    ancilla: u8,
    entries: Vec<Entry>,
    emitted: bool,
}

impl Body {
    /// The body that a call names, were it "met first for its pair".
    fn of_first_call(procedure: usize, first_list: Vec<u8>, ancilla: u8) -> Body {
        Body {
            procedure,
            first_list,
            ancilla,
            entries: Vec::new(),
            emitted: false,
        }
    }

    /// Its pair. The body with the least one goes first: that is a long list,
    /// and then a low procedure.
    fn pair(&self) -> (Reverse<usize>, usize) {
        (Reverse(self.first_list.len()), self.procedure)
    }
}

/// "A later call to that pair takes an entry ancilla".
struct Entry {
    ancilla: u8,
    list: Vec<u8>,
}

/// What a left part leaves for the right part of the same body.
enum Owed<'p> {
    /// The flip of a recursive call, "again at its place in the right".
    Flip(Gate),
    /// "a part after the width-1 part goes right".
    Whole(&'p Statement, Place),
}

/// A part of a body, for the tally.
#[derive(Clone, Copy)]
enum Part {
    Left,
    Right,
}

/// An emission under way.
struct Emitter<'p> {
    program: &'p Program,
    calls: Calls,
    n: u8,
    room: usize,
    length: usize,
    in_use: u8,
    most_in_use: u8,
    gates: Vec<Gate>,
    part: Option<Part>,
    tally: Tally,
}

impl<'p> Emitter<'p> {
    /// "ancillas follow, each new one the next number". In use is what was
    /// taken and not yet given back.
    fn take(&mut self) -> Result<u8, u32> {
        let highest = self.n.checked_add(self.in_use);
        let wire = highest.and_then(|highest| highest.checked_add(1));
        let wire = wire.ok_or(refusal::WIRE)?;
        self.in_use += 1;
        self.most_in_use = self.most_in_use.max(self.in_use);
        Ok(wire)
    }

    /// Emits a gate, or "23 header or next gate would pass the room's end".
    fn place(&mut self, gate: Gate) -> Result<(), u32> {
        let length = self.length + gate.length();
        if length > self.room {
            return Err(refusal::ROOM);
        }
        self.length = length;
        self.gates.push(gate);
        Ok(())
    }

    /// Emits a statement of width 0 whole. "A NOT emits one gate under the
    /// controls now in force"; "If: the chosen branch alone"; "a qcase of
    /// width 0 is emitted whole, zero then one, wherever it goes"; "A
    /// non-recursive call with a nonempty list starts a chain."
    fn whole(&mut self, statement: &'p Statement, at: &Place) -> Result<(), u32> {
        match statement {
            Statement::Skip => Ok(()),
            Statement::Not { removals, position } => match touched(&at.list, removals, *position) {
                Some(qubit) => self.place(Gate::not(qubit, &at.controls)),
                None => Ok(()),
            },
            Statement::Sequence(first, second) => {
                self.whole(first, at)?;
                self.whole(second, at)
            }
            Statement::If { condition, yes, no } => {
                let size = at.list.len();
                self.whole(if holds(condition, size) { yes } else { no }, at)
            }
            Statement::Qcase {
                removals,
                position,
                zero,
                one,
            } => match touched(&at.list, removals, *position) {
                Some(qubit) => {
                    self.whole(zero, &at.under(qubit, false))?;
                    self.whole(one, &at.under(qubit, true))
                }
                None => Ok(()),
            },
            Statement::Call {
                removals,
                procedure,
            } => match remaining(&at.list, removals) {
                list if list.is_empty() => Ok(()),
                list => self.call(*procedure, list, &at.controls),
            },
        }
    }

    /// "It takes an ancilla, flips it under the caller's controls, emits the
    /// chain, flips it back and gives back all the chain's ancillas."
    fn call(&mut self, procedure: usize, list: Vec<u8>, controls: &[Control]) -> Result<(), u32> {
        self.count_chain();
        let (in_use, part) = (self.in_use, self.part);
        let ancilla = self.take()?;
        let flip = Gate::not(ancilla, controls);
        self.place(flip.clone())?;
        self.chain(Body::of_first_call(procedure, list, ancilla))?;
        self.place(flip)?;
        self.in_use = in_use;
        self.part = part;
        Ok(())
    }

    /// "Bodies have a left part in order and a right part in reverse order of
    /// bodies." The entry gates stand "Before the shared body's left part",
    /// and "After its right part the same gates come in reverse."
    fn chain(&mut self, first: Body) -> Result<(), u32> {
        let mut bodies = vec![first];
        let mut order = Vec::new();
        let mut right_parts = Vec::new();
        while let Some(index) = next_body(&bodies) {
            bodies[index].emitted = true;
            order.push(index);
            let entry_gates = entry_gates(&bodies[index]);
            self.tally.swaps += entry_gates.iter().filter(|gate| gate.is_swap()).count();
            self.place_all(entry_gates.iter())?;
            self.part = Some(Part::Left);
            let owed = self.left_part(&mut bodies, index)?;
            right_parts.push((owed, entry_gates));
        }
        self.count_bodies(&bodies, &order);
        for (owed, entry_gates) in right_parts.into_iter().rev() {
            self.part = Some(Part::Right);
            self.right_part(owed)?;
            self.place_all(entry_gates.iter().rev())?;
        }
        Ok(())
    }

    /// Emits gates one after another.
    fn place_all<'g>(&mut self, gates: impl Iterator<Item = &'g Gate>) -> Result<(), u32> {
        for gate in gates {
            self.place(gate.clone())?;
        }
        Ok(())
    }

    /// Emits the left part of a body and gives what its right part owes.
    fn left_part(&mut self, bodies: &mut Vec<Body>, index: usize) -> Result<Vec<Owed<'p>>, u32> {
        let body = &bodies[index];
        let start = Place {
            procedure: body.procedure,
            list: body.first_list.clone(),
            controls: vec![Control {
                wire: body.ancilla,
                asks: true,
            }],
        };
        self.left(self.program.body(start.procedure), &start, bodies)
    }

    /// The left of a statement. One of width 0 goes left whole. "Sequence: a
    /// part after the width-1 part goes right, behind that part's own right;
    /// all else left. If: the chosen branch alone. Qcase: left zero then one,
    /// right one then zero".
    fn left(
        &mut self,
        statement: &'p Statement,
        at: &Place,
        bodies: &mut Vec<Body>,
    ) -> Result<Vec<Owed<'p>>, u32> {
        if self.calls.width(at.procedure, statement) == 0 {
            self.whole(statement, at)?;
            return Ok(Vec::new());
        }
        match statement {
            Statement::Skip | Statement::Not { .. } => Ok(Vec::new()),
            Statement::Sequence(first, second) if self.calls.width(at.procedure, first) == 0 => {
                self.whole(first, at)?;
                self.left(second, at, bodies)
            }
            Statement::Sequence(first, second) => {
                let mut owed = self.left(first, at, bodies)?;
                owed.push(Owed::Whole(second, at.clone()));
                Ok(owed)
            }
            Statement::If { condition, yes, no } => {
                let size = at.list.len();
                self.left(if holds(condition, size) { yes } else { no }, at, bodies)
            }
            Statement::Qcase {
                removals,
                position,
                zero,
                one,
            } => {
                let Some(qubit) = touched(&at.list, removals, *position) else {
                    return Ok(Vec::new());
                };
                let zero_owed = self.left(zero, &at.under(qubit, false), bodies)?;
                let mut owed = self.left(one, &at.under(qubit, true), bodies)?;
                owed.extend(zero_owed);
                Ok(owed)
            }
            Statement::Call {
                removals,
                procedure,
            } => self.recursive_call(*procedure, remaining(&at.list, removals), at, bodies),
        }
    }

    /// "A call with an empty list emits nothing and names no pair. A recursive
    /// call met first for its pair takes the body's ancilla and flips it under
    /// the controls in force, in the left part and again at its place in the
    /// right. A later call to that pair takes an entry ancilla and flips that
    /// instead."
    fn recursive_call(
        &mut self,
        procedure: usize,
        list: Vec<u8>,
        at: &Place,
        bodies: &mut Vec<Body>,
    ) -> Result<Vec<Owed<'p>>, u32> {
        if list.is_empty() {
            return Ok(Vec::new());
        }
        let ancilla = self.take()?;
        let flip = Gate::not(ancilla, &at.controls);
        self.place(flip.clone())?;
        let called = Body::of_first_call(procedure, list, ancilla);
        match bodies.iter_mut().find(|body| body.pair() == called.pair()) {
            Some(body) => {
                let list = called.first_list;
                body.entries.push(Entry { ancilla, list });
                self.tally.entries += 1;
            }
            None => bodies.push(called),
        }
        Ok(vec![Owed::Flip(flip)])
    }

    /// Emits the right part of a body.
    fn right_part(&mut self, owed: Vec<Owed<'p>>) -> Result<(), u32> {
        for owed in owed {
            match owed {
                Owed::Flip(flip) => self.place(flip)?,
                Owed::Whole(statement, at) => self.whole(statement, &at)?,
            }
        }
        Ok(())
    }

    /// Counts a chain by the part of a body in which it starts.
    fn count_chain(&mut self) {
        self.tally.chains += 1;
        match self.part {
            Some(Part::Left) => self.tally.nested_left += 1,
            Some(Part::Right) => self.tally.nested_right += 1,
            None => {}
        }
    }

    /// Counts a chain by its bodies, which stand in the order called, and by the
    /// order in which they were emitted.
    fn count_bodies(&mut self, bodies: &[Body], order: &[usize]) {
        let mutual = |body: &Body| body.procedure != bodies[0].procedure;
        self.tally.mutual += usize::from(bodies.iter().any(mutual));
        let length = |index: &usize| bodies[*index].first_list.len();
        let mut reordered = false;
        for group in order.chunk_by(|one, next| length(one) == length(next)) {
            reordered |= !group.is_sorted();
            let most = self.tally.most_of_one_length.max(group.len());
            self.tally.most_of_one_length = most;
            if group.len() > 1 {
                let entries = group.iter().map(|&index| bodies[index].entries.len());
                self.tally.entries_of_one_length += entries.sum::<usize>();
            }
        }
        self.tally.reordered += usize::from(reordered);
    }
}

/// "The longest list goes first", and of document 02, S-6: "Bodies of equal list
/// length are now emitted in order of procedure number, lowest first." A
/// recursive call shortens the list, so every call to a body is met before the
/// body's turn comes.
fn next_body(bodies: &[Body]) -> Option<usize> {
    let waiting = (0..bodies.len()).filter(|&index| !bodies[index].emitted);
    waiting.min_by_key(|&index| bodies[index].pair())
}

/// "for each such call in order: flip the body's ancilla under the entry
/// ancilla; then for k = 1 up to the length, swap, under the entry ancilla,
/// the wire now holding the k-th qubit of the later list with the k-th wire of
/// the first list, unless equal."
fn entry_gates(body: &Body) -> Vec<Gate> {
    let mut gates = Vec::new();
    for entry in &body.entries {
        let control = [Control {
            wire: entry.ancilla,
            asks: true,
        }];
        gates.push(Gate::not(body.ancilla, &control));
        for (wire, other) in swaps(&entry.list, &body.first_list) {
            gates.push(Gate::swap(wire, other, &control));
        }
    }
    gates
}

/// The pairs of wires to swap. "For each such call the tracking starts afresh,
/// every qubit on the wire its list names."
fn swaps(later: &[u8], first: &[u8]) -> Vec<(u8, u8)> {
    let mut holding = later.to_vec();
    let mut swaps = Vec::new();
    for (k, &wire) in first.iter().enumerate() {
        let held_on = holding[k];
        if held_on == wire {
            continue;
        }
        swaps.push((held_on, wire));
        for place in &mut holding {
            if *place == wire {
                *place = held_on;
            } else if *place == held_on {
                *place = wire;
            }
        }
    }
    swaps
}
