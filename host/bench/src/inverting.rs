//! The inverse of a table, and what of it is the writing. A room that is too
//! short is refused only when the whole table has been checked, so the writing
//! is what the inverse takes longer. A table with a byte too many is refused
//! only when all of its records have been read: that is the reading.

use crate::rows::{print_parts, print_rest, print_row, title, used};
use crate::timing::rounds;
use foq::{Refusal, LEAST_WORKSPACE};
use foq_generator::published::full_adder;
use foq_generator::tables::{deepest, full, leaning_left, leaning_right, sixteen_in_turn};
use foq_generator::tree::{qcase, sequence, table, Number, Statement};
use foq_generator::PAIRS;
use foq_reference::SHORTEST_WORKSPACE;
use std::hint::black_box;

/// All are inverted on 32 qubits.
const N: u32 = 32;

/// Tables and their names. The last six have 255 records.
fn cases() -> [(&'static str, Vec<u8>); 8] {
    [
        ("PAIRS", PAIRS.to_vec()),
        ("full adder", full_adder()),
        ("16 procedures in turn", sixteen_in_turn()),
        ("leaning left", deepest(leaning_left)),
        ("leaning right", deepest(leaning_right)),
        ("127 sequences, skips", table(full(8), &[])),
        ("127 sequences, NOTs", table(sequences_of_nots(8), &[])),
        (
            "254 records of 30 bytes",
            table(Statement::Skip, &vec![qcases_of_nots(7); 2]),
        ),
    ]
}

/// Eight removals, as many as a record can have.
fn removals() -> Vec<Number> {
    vec![Number::Constant(1); 8]
}

/// A NOT with eight removals.
fn long_not() -> Statement {
    Statement::Not(removals(), Number::Constant(1))
}

/// A full tree of sequences with this many levels that ends with NOTs of eight
/// removals.
fn sequences_of_nots(levels: usize) -> Statement {
    (1..levels).fold(long_not(), |half, _| sequence(half.clone(), half))
}

/// The same with qcases of eight removals in place of the sequences. Main does
/// not reach it: what it touches is closed.
fn qcases_of_nots(levels: usize) -> Statement {
    let both = |half: Statement, _| qcase(removals(), Number::Constant(1), half.clone(), half);
    (1..levels).fold(long_not(), both)
}

/// Asserts that both give the same inverse, and both refuse a room that is too
/// short and a byte too many.
fn assert_agree(table: &[u8], longer: &[u8]) {
    let second = foq_reference::inverse(table, N, table.len()).unwrap();
    assert!(foq::inverse_to_vec(table, N).unwrap() == second);
    for (table, refusal) in [
        (table, Refusal::SHORT_TABLE_ROOM),
        (longer, Refusal::BYTES_LEFT),
    ] {
        assert_eq!(foq::inverse(table, N, &mut []), Err(refusal));
        let second = foq_reference::inverse(table, N, 0);
        assert_eq!(second, Err(refusal.number()));
    }
}

fn print_case(name: &str, table: &[u8], workspace: &mut [u8]) {
    let longer = [table, &[0]].concat();
    assert_agree(table, &longer);
    let bytes = table.len();
    let room = &mut vec![0; bytes];
    let table = || black_box(table);
    let longer = || black_box(longer.as_slice());
    let n = || black_box(N);
    let rounds = rounds([
        &mut || used(foq::inverse(table(), n(), room)),
        &mut || used(foq_reference::inverse(table(), n(), bytes)),
        &mut || used(foq::verdict(table(), n(), workspace)),
        &mut || used(foq_reference::verdict(table(), n(), SHORTEST_WORKSPACE)),
        &mut || used(foq::inverse(longer(), n(), &mut [])),
        &mut || used(foq_reference::inverse(longer(), n(), 0)),
        &mut || used(foq::inverse(table(), n(), &mut [])),
        &mut || used(foq_reference::inverse(table(), n(), 0)),
    ]);
    let [inverse, verdict, reading, unwritten] = [[0, 1], [2, 3], [4, 5], [6, 7]];
    let title = |what, name| title(what, name, N, bytes);
    print_row(&title("inverse", name), &rounds, inverse);
    print_row(&title(" verdict", name), &rounds, verdict);
    print_row(&title(" reading", name), &rounds, reading);
    print_rest(&title(" writing", name), &rounds, inverse, unwritten);
    let title = title(" parts", "writing / reading");
    print_parts(&title, &rounds, inverse, unwritten, reading);
}

/// Prints the rows of every case. The bytes are the table's, and its inverse's.
pub fn print() {
    let workspace = &mut vec![0; LEAST_WORKSPACE];
    for (name, table) in cases() {
        print_case(name, &table, workspace);
    }
}
