//! Document 01, "Refusals from the input" and "Refusals from the state": the
//! operations verdict, run and compile, with the order of their refusals.

use crate::calls::Calls;
use crate::circuit::{circuit_bytes, start_word, Circuit};
use crate::emission::emit;
use crate::fault::{plain_fault, quick_fault};
use crate::meaning::end_word;
use crate::refusal;
use crate::table::{read_table, Program};

/// "21 workspace shorter than 32,768 bytes".
pub const SHORTEST_WORKSPACE: usize = 32_768;

/// "9 n not 1 to 32".
pub(crate) fn qubits(n: u32) -> Result<u8, u32> {
    match u8::try_from(n) {
        Ok(n @ 1..=32) => Ok(n),
        _ => Err(refusal::QUBITS),
    }
}

/// "21 workspace shorter than 32,768 bytes (verdict, run and compile take
/// one ...)". Its bytes mean nothing here.
fn workspace(length: usize) -> Result<(), u32> {
    if length < SHORTEST_WORKSPACE {
        return Err(refusal::WORKSPACE);
    }
    Ok(())
}

/// "10 over the whole table, then 11, then 12", with either way of looking
/// for access faults.
fn judge_with(program: &Program, n: u8, faults: fn(&Program, u8) -> bool) -> Result<(), u32> {
    let calls = Calls::of(program);
    if calls.lack_a_removal(program) {
        return Err(refusal::NO_REMOVAL);
    }
    if calls.too_wide(program) {
        return Err(refusal::WIDTH);
    }
    if faults(program, n) {
        return Err(refusal::FAULT);
    }
    Ok(())
}

/// "10 over the whole table, then 11, then 12".
pub(crate) fn judge(program: &Program, n: u8) -> Result<(), u32> {
    judge_with(program, n, quick_fault)
}

/// "Order: 9; header 1 (fewer than two bytes), 2, 3; each record [...]; 8; 10
/// over the whole table, then 11, then 12".
pub(crate) fn accepted(table: &[u8], n: u32) -> Result<(Program, u8), u32> {
    let n = qubits(n)?;
    let program = read_table(table)?;
    judge(&program, n)?;
    Ok((program, n))
}

/// The number of an answer that carries nothing else: "Success is number 0".
fn number(answer: Result<(), u32>) -> u32 {
    answer.err().unwrap_or(0)
}

/// Verdict: 0 for an accepted table, otherwise the refusal's number.
#[must_use]
pub fn verdict(table: &[u8], n: u32, workspace_len: usize) -> u32 {
    number(accepted(table, n).and_then(|_| workspace(workspace_len)))
}

/// Verdict with access faults looked for plainly, walking every call from
/// main. Its time can grow as 2 to the power n.
#[must_use]
pub fn plain_verdict(table: &[u8], n: u32, workspace_len: usize) -> u32 {
    let judged = || {
        let n = qubits(n)?;
        judge_with(&read_table(table)?, n, plain_fault)?;
        workspace(workspace_len)
    };
    number(judged())
}

/// Run: the end word. A run takes as long as its program; one whose circuit
/// fits a room is soon over.
///
/// # Errors
/// The refusals 1 to 13 and 21, in the order "9; [...] 12; 13; 21".
pub fn run(table: &[u8], n: u32, word: u64, workspace_len: usize) -> Result<u64, u32> {
    let (program, n) = accepted(table, n)?;
    start_word(n, word)?;
    workspace(workspace_len)?;
    Ok(end_word(&program, n, word))
}

/// Compile: the bytes that a room of this length holds on success.
///
/// # Errors
/// The refusals 1 to 12 and 21; "Then 23 for the header, then 22 or 23 at the
/// first ancilla or gate that does not fit."
pub fn compile(
    table: &[u8],
    n: u32,
    room_len: usize,
    workspace_len: usize,
) -> Result<Vec<u8>, u32> {
    let (program, n) = accepted(table, n)?;
    workspace(workspace_len)?;
    let emission = emit(&program, n, room_len)?;
    Ok(circuit_bytes(&Circuit {
        n,
        ancillas: emission.ancillas,
        gates: emission.gates,
    }))
}
