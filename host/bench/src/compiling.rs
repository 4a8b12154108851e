//! Compile of a table, and what of it is the emission.

use crate::rows::{print_rest, print_row, title, used};
use crate::timing::{rounds, slow_rounds};
use foq::{LEAST_WORKSPACE, MOST_CIRCUIT};
use foq_generator::emissions::{filled, merged_lists, slowest_compile, SLOWEST_QUBITS};
use foq_generator::equal_lengths::sixteen_of_one_length;
use foq_generator::size_left::{reversal, reversal_by_hand};
use foq_generator::tables::nested_classes;
use foq_generator::tree::Statement;
use foq_generator::PAIRS;
use foq_reference::{LONGEST_CIRCUIT, SHORTEST_WORKSPACE};
use std::hint::black_box;

/// All but the slowest are compiled on 32 qubits.
const N: u32 = 32;

/// Tables and their names. The last one's emission would be astronomical, and
/// is refused at the first gate past the room.
fn cases() -> [(&'static str, Vec<u8>); 7] {
    [
        ("PAIRS", PAIRS.to_vec()),
        (
            "circuit of 65,536 bytes",
            filled(LONGEST_CIRCUIT, Statement::Skip, &[]),
        ),
        ("4,340 swaps", merged_lists()),
        ("equal lengths", sixteen_of_one_length(N as i16)),
        ("reversal, base 1", reversal_by_hand()),
        ("reversal, base 2", reversal()),
        ("16 nested classes", nested_classes(16)),
    ]
}

/// The number of bytes of the circuit, 0 where it is refused. Asserts that
/// both give the same circuit or refusal.
pub fn circuit_bytes(table: &[u8], n: u32, room: &mut [u8], workspace: &mut [u8]) -> usize {
    let product = foq::compile(table, n, room, workspace);
    let second = foq_reference::compile(table, n, LONGEST_CIRCUIT, SHORTEST_WORKSPACE);
    match (product, second) {
        (Ok(product), Ok(second)) => {
            assert!(product == second);
            product.len()
        }
        (product, second) => {
            assert_eq!(product.unwrap_err().number(), second.unwrap_err());
            0
        }
    }
}

fn print_case(name: &str, table: &[u8], room: &mut [u8], workspace: &mut [u8]) {
    let bytes = circuit_bytes(table, N, room, workspace);
    let table = || black_box(table);
    let n = || black_box(N);
    let other_workspace = &mut workspace.to_vec();
    let rounds = rounds([
        &mut || used(foq::verdict(table(), n(), other_workspace)),
        &mut || used(foq_reference::verdict(table(), n(), SHORTEST_WORKSPACE)),
        &mut || used(foq::compile(table(), n(), room, workspace)),
        &mut || {
            let room = LONGEST_CIRCUIT;
            used(foq_reference::compile(
                table(),
                n(),
                room,
                SHORTEST_WORKSPACE,
            ));
        },
    ]);
    let title = |what| title(what, name, N, bytes);
    print_row(&title("compile"), &rounds, [2, 3]);
    print_row(&title(" verdict"), &rounds, [0, 1]);
    print_rest(&title(" emission"), &rounds, [2, 3], [0, 1]);
}

/// The slowest table takes long, so that few calls are timed. Asserts with them
/// that both give the same circuit or refusal.
fn print_slowest(room: &mut [u8], workspace: &mut [u8]) {
    let table = slowest_compile();
    let table = || black_box(table.as_slice());
    let n = || black_box(SLOWEST_QUBITS);
    let (mut product, mut second) = (Err(0), Err(0));
    let rounds = slow_rounds([
        &mut || {
            let circuit = foq::compile(table(), n(), room, workspace);
            product = circuit.map(<[u8]>::to_vec).map_err(foq::Refusal::number);
        },
        &mut || {
            second = foq_reference::compile(table(), n(), LONGEST_CIRCUIT, SHORTEST_WORKSPACE);
        },
    ]);
    assert!(product == second);
    let bytes = product.map_or(0, |circuit| circuit.len());
    let title = title("compile", "slowest known", SLOWEST_QUBITS, bytes);
    print_row(&title, &rounds, [0, 1]);
}

/// Prints the rows of every case. The bytes are the circuit's.
pub fn print() {
    let room = &mut vec![0; MOST_CIRCUIT];
    let workspace = &mut vec![0; LEAST_WORKSPACE];
    for (name, table) in cases() {
        print_case(name, &table, room, workspace);
    }
    print_slowest(room, workspace);
}
