//! A fault planted in one operation is found and shown on a small input; the
//! product itself has none among as many inputs.

use foq::border::{self, Answer, Band, Block, Circuit};
use foq::circuit_list_to_string;
use foq_fuzz::input::Input;
use foq_fuzz::operations::{Operations, Product};
use foq_fuzz::trees::{trees, Tree};
use foq_fuzz::{fuzz, Tried};
use foq_reference::{circuit_bytes, read_circuit, Action};

/// Inputs that are tried at most.
const INPUTS: u64 = 4_000;

/// What is found.
fn found(product: &impl Operations) -> Option<(Input, String)> {
    let goes_on = |tried: &Tried| tried.tables + tried.circuits < INPUTS;
    let (_, mismatch) = fuzz(product, 1, goes_on);
    mismatch.map(|found| (found.input, found.difference))
}

/// Asserts that a fault is found, on an input of at most so many bytes.
fn assert_found_within(product: &impl Operations, operation: &str, most: usize) {
    let (input, difference) = found(product).expect(operation);
    println!("{difference}: {input}");
    assert!(difference.starts_with(operation));
    assert!(input.bytes().len() <= most);
}

/// Asserts that a fault is found, on an input of few bytes.
fn assert_found(product: &impl Operations, operation: &str) {
    assert_found_within(product, operation, 40);
}

#[test]
fn the_product_has_no_fault_among_some_inputs() {
    assert_eq!(found(&Product::of_the_repository()), None);
}

/// Accepts what has an access fault.
struct Lenient;

impl Operations for Lenient {
    fn verdict(&self, table: &[u8], n: u32, workspace: &mut [u8]) -> u32 {
        match border::verdict(table, n, workspace) {
            12 => 0,
            number => number,
        }
    }
}

/// Hands the start word back where the table has two procedures.
struct Lazy;

impl Operations for Lazy {
    fn run(&self, table: &[u8], n: u32, word: u64, workspace: &mut [u8]) -> Answer {
        let mut answer = border::run(table, n, word, workspace);
        if answer.number == 0 && table[1] > 1 {
            answer.value = word;
        }
        answer
    }
}

/// Takes base 2 as base 1 in a run.
struct Stale;

impl Operations for Stale {
    fn run(&self, table: &[u8], n: u32, word: u64, workspace: &mut [u8]) -> Answer {
        let mut taken = table.to_vec();
        for at in trees(table).into_iter().flat_map(|tree| tree.numbers) {
            taken[at] = taken[at].min(1);
        }
        border::run(&taken, n, word, workspace)
    }
}

/// Writes a byte of the room behind a circuit with more than four ancillas.
struct Untidy;

impl Operations for Untidy {
    fn compile(&self, table: &[u8], n: u32, room: &mut [u8], workspace: &mut [u8]) -> Answer {
        let answer = border::compile(table, n, room, workspace);
        let behind = room.get(2).is_some_and(|&ancillas| ancillas > 4);
        if let Some(byte) = room.get_mut(answer.value as usize) {
            *byte ^= u8::from(behind && answer.number == 0);
        }
        answer
    }
}

/// Takes a qubit that a swap has pushed away from its own wire: swaps of 1 with
/// 2 and then of 1 with 3 become those of 1 with 2 and of 2 with 3.
struct Astray;

impl Operations for Astray {
    fn compile(&self, table: &[u8], n: u32, room: &mut [u8], workspace: &mut [u8]) -> Answer {
        let answer = border::compile(table, n, room, workspace);
        let written = room.get_mut(..answer.value as usize).unwrap_or_default();
        if let Ok(mut circuit) = read_circuit(written) {
            for at in 1..circuit.gates.len() {
                let [before, gate] = [at - 1, at].map(|at| circuit.gates[at].action);
                circuit.gates[at].action = astray(before, gate);
            }
            written.copy_from_slice(&circuit_bytes(&circuit));
        }
        answer
    }
}

/// What [`Astray`] makes of a gate behind another one.
fn astray(before: Action, gate: Action) -> Action {
    match (before, gate) {
        (Action::Swap { lower, upper: own }, Action::Swap { lower: now, upper })
            if lower == now && own < upper =>
        {
            Action::Swap { lower: own, upper }
        }
        _ => gate,
    }
}

/// Puts the highest procedure first among bodies of one list length: the
/// procedures are numbered from the last one on.
struct Backward;

impl Operations for Backward {
    fn compile(&self, table: &[u8], n: u32, room: &mut [u8], workspace: &mut [u8]) -> Answer {
        border::compile(&numbered_backward(table), n, room, workspace)
    }
}

/// The table with its last procedure as the first one, and so on, which means
/// the same; as it is where it is not read.
fn numbered_backward(table: &[u8]) -> Vec<u8> {
    let trees = trees(table);
    let mut bytes = table.to_vec();
    for at in trees.iter().filter_map(Tree::procedure) {
        bytes[at] = table[1] + 1 - table[at];
    }
    let front = trees.first().map_or(table.len(), |main| main.range.end);
    let mut bodies = Vec::new();
    let mut behind = front;
    for body in &trees {
        if body.range.start == behind {
            bodies.push(&bytes[body.range.clone()]);
            behind = body.range.end;
        }
    }
    bodies.reverse();
    [&bytes[..front], &bodies.concat()].concat()
}

/// Leaves a workspace as it was where the table is refused.
struct Forgetful;

impl Operations for Forgetful {
    fn compile(&self, table: &[u8], n: u32, room: &mut [u8], workspace: &mut [u8]) -> Answer {
        let before = workspace.to_vec();
        let answer = border::compile(table, n, room, workspace);
        if answer.number == 11 {
            workspace.copy_from_slice(&before);
        }
        answer
    }
}

/// Exchanges the two statements of this sequence or qcase, whose first one is the
/// next of the trees.
fn exchange(table: &mut [u8], trees: &[Tree], place: usize) {
    let first = &trees[place + 1].range;
    table[first.start..trees[place].range.end].rotate_left(first.len());
}

/// Exchanges the branches of an inverse's first qcase.
struct Crossed;

impl Operations for Crossed {
    fn inverse(&self, table: &[u8], n: u32, room: &mut [u8]) -> Answer {
        let answer = border::inverse(table, n, room);
        let written = &mut room[..answer.value as usize];
        let trees = trees(written);
        if let Some(place) = trees.iter().position(|tree| tree.kind == 4) {
            exchange(written, &trees, place);
        }
        answer
    }
}

/// Turns no sequence round that stands in another one.
struct Shallow;

impl Operations for Shallow {
    fn inverse(&self, table: &[u8], n: u32, room: &mut [u8]) -> Answer {
        let answer = border::inverse(table, n, room);
        if answer.number == 0 {
            room[..table.len()].copy_from_slice(table);
            let trees = trees(table);
            let mut behind = 0;
            for (place, tree) in trees.iter().enumerate() {
                if tree.kind == 2 && tree.range.start >= behind {
                    exchange(room, &trees, place);
                    behind = tree.range.end;
                }
            }
        }
        answer
    }
}

/// Turns main alone round, and keeps the bodies as they are.
struct Halfway;

impl Operations for Halfway {
    fn inverse(&self, table: &[u8], n: u32, room: &mut [u8]) -> Answer {
        let answer = border::inverse(table, n, room);
        if answer.number == 0 {
            let bodies = trees(table)[0].range.end..table.len();
            room[bodies.clone()].copy_from_slice(&table[bodies]);
        }
        answer
    }
}

/// Refuses a room that is too short before an access fault.
struct Rash;

impl Operations for Rash {
    fn inverse(&self, table: &[u8], n: u32, room: &mut [u8]) -> Answer {
        let mut answer = border::inverse(table, n, room);
        if answer.number == 12 && room.len() < table.len() {
            answer.number = 24;
        }
        answer
    }
}

/// Writes the edition into a room that is too short.
struct Eager;

impl Operations for Eager {
    fn inverse(&self, table: &[u8], n: u32, room: &mut [u8]) -> Answer {
        let answer = border::inverse(table, n, room);
        if answer.number == 24 {
            room.iter_mut().take(1).for_each(|byte| *byte = table[0]);
        }
        answer
    }
}

/// Wants a room that is longer than the table.
struct Picky;

impl Operations for Picky {
    fn inverse(&self, table: &[u8], n: u32, room: &mut [u8]) -> Answer {
        let shorter = room.len().saturating_sub(1);
        border::inverse(table, n, &mut room[..shorter])
    }
}

/// Reads a circuit with a byte too many.
struct Careless;

impl Operations for Careless {
    fn circuit_read(&self, circuit: &[u8]) -> Circuit {
        let whole = border::circuit_read(circuit);
        match circuit.split_last() {
            Some((_, rest)) if whole.number != 0 => border::circuit_read(rest),
            _ => whole,
        }
    }
}

/// Leaves the last wire of a block out.
struct Short;

impl Operations for Short {
    fn circuit_run(&self, circuit: &[u8], word: u64) -> Block {
        let mut block = border::circuit_run(circuit, word);
        block.bits[31] = 0;
        block
    }
}

/// Prints the number of gates as the size.
struct Outdated;

impl Operations for Outdated {
    fn circuit_list(&self, circuit: &[u8], text: &mut [u8]) -> Answer {
        let Ok(listing) = circuit_list_to_string(circuit) else {
            return border::circuit_list(circuit, text);
        };
        let gates = listing.lines().count() - 1;
        let (first, lines) = listing.split_once('\n').unwrap();
        let (sizes, _) = first.rsplit_once(' ').unwrap();
        let outdated = format!("{sizes} {gates}\n{lines}");
        let Some(put) = text.get_mut(..outdated.len()) else {
            let (number, value) = (23, 0);
            return Answer { number, value };
        };
        put.copy_from_slice(outdated.as_bytes());
        let (number, value) = (0, outdated.len() as u64);
        Answer { number, value }
    }
}

/// Puts as much of a listing into a text that is too short as it takes.
struct Spilling;

impl Operations for Spilling {
    fn circuit_list(&self, circuit: &[u8], text: &mut [u8]) -> Answer {
        let answer = border::circuit_list(circuit, text);
        if answer.number == 23 {
            let listing = circuit_list_to_string(circuit).unwrap();
            text.copy_from_slice(&listing.as_bytes()[..text.len()]);
        }
        answer
    }
}

/// Wants a text that is longer than the listing.
struct Greedy;

impl Operations for Greedy {
    fn circuit_list(&self, circuit: &[u8], text: &mut [u8]) -> Answer {
        let shorter = text.len().saturating_sub(1);
        border::circuit_list(circuit, &mut text[..shorter])
    }
}

/// Draws controls on 1 as controls on 0, and the other way round.
struct Twisted;

impl Operations for Twisted {
    fn page_band(&self, circuit: &[u8], place: u64, text: &mut [u8]) -> Band {
        let band = border::page_band(circuit, place, text);
        let written = text.get_mut(..band.length as usize).unwrap_or_default();
        for mark in written {
            *mark = match *mark {
                b'+' => b'o',
                b'o' => b'+',
                other => other,
            };
        }
        band
    }
}

/// Leaves the last band of a page out.
struct Hasty;

impl Operations for Hasty {
    fn page_band(&self, circuit: &[u8], place: u64, text: &mut [u8]) -> Band {
        let mut band = border::page_band(circuit, place, text);
        if border::page_band(circuit, band.next, &mut []).next == 0 {
            band.next = 0;
        }
        band
    }
}

/// Prints nothing.
struct Mute;

impl Operations for Mute {
    fn listing(&self, _: &[u8]) -> Option<Vec<u8>> {
        Some(Vec::new())
    }
}

#[test]
fn planted_faults_are_found() {
    assert_found(&Lenient, "verdict");
    assert_found(&Lazy, "run");
    assert_found(&Stale, "run");
    // Two calls whose lists differ in two qubits at least.
    assert_found_within(&Astray, "circuit", 49);
    assert_found(&Backward, "circuit");
    assert_found(&Untidy, "room's rest");
    assert_found(&Forgetful, "workspace");
    assert_found(&Crossed, "inverse's table");
    assert_found(&Shallow, "inverse's table");
    assert_found(&Halfway, "inverse's table");
    assert_found(&Rash, "inverse");
    assert_found(&Eager, "inverse's rest");
    assert_found(&Picky, "inverse");
    assert_found(&Careless, "circuit read");
    assert_found(&Short, "circuit run");
    assert_found(&Outdated, "circuit list");
    assert_found(&Spilling, "circuit list's rest");
    assert_found(&Greedy, "circuit list");
    assert_found(&Twisted, "page");
    // Twenty gates of two bytes are the least that go on in a second band.
    assert_found_within(&Hasty, "page's end", 47);
    assert_found(&Mute, "listing");
}
