//! How circuits grow with n, beside what branch sequentialization would give.

use crate::compiling::circuit_bytes;
use crate::rows::used;
use crate::sequential;
use crate::timing::{median, rounds};
use foq::{LEAST_WORKSPACE, MOST_CIRCUIT};
use foq_generator::emissions::merged_lists;
use foq_generator::published::{chained_substring, full_adder, palindromes};
use foq_generator::PAIRS;
use foq_reference::read_table;
use std::hint::black_box;

/// Programs of source 002, and one with many swaps, on numbers of qubits. The
/// circuit of the chained substring is too long from 23 qubits on.
fn cases() -> [(&'static str, Vec<u8>, &'static [u32]); 5] {
    [
        ("PAIRS", PAIRS.to_vec(), &[4, 8, 16, 32]),
        ("palindromes", palindromes(), &[4, 8, 16, 32]),
        ("full adder", full_adder(), &[4, 7, 16, 31]),
        (
            "chained substring",
            chained_substring(),
            &[4, 8, 11, 16, 22, 23, 32],
        ),
        ("many swaps", merged_lists(), &[8, 16, 32]),
    ]
}

/// Prints gates, bytes, the microseconds of compile and the gates without
/// merging. A circuit that is refused has no gates here.
fn print_growth(name: &str, table: &[u8], n: u32) {
    let room = &mut vec![0; MOST_CIRCUIT];
    let workspace = &mut vec![0; LEAST_WORKSPACE];
    let bytes = circuit_bytes(table, n, room, workspace);
    let gates = foq::circuit_read(&room[..bytes]).map_or(0, |circuit| circuit.gates);
    let unmerged = sequential::gates(&read_table(table).unwrap(), n as usize);
    let rounds = rounds([&mut || {
        used(foq::compile(
            black_box(table),
            black_box(n),
            room,
            workspace,
        ));
    }]);
    let time = median(&rounds, |[time]| *time);
    println!("{name:24}{n:3}{gates:8}{bytes:8}{time:10.1}{unmerged:>14}");
}

/// Prints the rows of every program.
pub fn print() {
    println!(
        "\n{:24}{:>3}{:>8}{:>8}{:>10}{:>14}",
        "compile", "n", "gates", "bytes", "time", "unmerged"
    );
    for (name, table, numbers) in cases() {
        for &n in numbers {
            print_growth(name, &table, n);
        }
    }
}
