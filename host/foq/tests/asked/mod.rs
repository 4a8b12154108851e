//! Verdict and run, asked of the product and of the second interpreter. The
//! workspace is lent dirty and must come back as zeros.

// Each test uses a part of this.
#![allow(dead_code)]

use crate::lent::Workspace;
use foq::border::{self, Answer};
use foq_expected::answer;
use foq_reference::{run, verdict};

/// The verdict of both, with a workspace of this length.
pub fn verdict_of_both(workspace: &mut Workspace, table: &[u8], n: u32, length: usize) -> u32 {
    let given = workspace.lend(length, |lent| border::verdict(table, n, lent));
    let expected = verdict(table, n, length);
    assert_eq!(given, expected, "n = {n}, {length} lent, {table:02x?}");
    given
}

/// The run of both, with a workspace of this length.
pub fn run_of_both(
    workspace: &mut Workspace,
    table: &[u8],
    n: u32,
    word: u64,
    length: usize,
) -> Answer {
    let given = workspace.lend(length, |lent| border::run(table, n, word, lent));
    let expected = answer(run(table, n, word, length));
    assert_eq!(
        given, expected,
        "n = {n}, {word:x}, {length} lent, {table:02x?}"
    );
    given
}
