//! The rows that are printed.

use crate::timing::{median, Round};
use std::hint::black_box;

/// Prints the medians of the product's and the second interpreter's times,
/// and of their ratio.
pub fn print_row<const CALLS: usize>(
    title: &str,
    rounds: &[Round<CALLS>],
    [ours, theirs]: [usize; 2],
) {
    let product = median(rounds, |round| round[ours]);
    let second = median(rounds, |round| round[theirs]);
    let ratio = median(rounds, |round| round[ours] / round[theirs]);
    println!("{title:44}{product:12.2}{second:12.2}{ratio:7.2}");
}

/// Prints the medians of what one pair of calls takes longer than another.
pub fn print_rest<const CALLS: usize>(
    title: &str,
    rounds: &[Round<CALLS>],
    whole: [usize; 2],
    part: [usize; 2],
) {
    let [product, second] =
        [0, 1].map(|side| median(rounds, |round| round[whole[side]] - round[part[side]]));
    println!("{title:44}{product:12.2}{second:12.2}");
}

/// Prints the medians of what one pair of calls takes longer than another, as
/// parts of what a third pair takes.
pub fn print_parts<const CALLS: usize>(
    title: &str,
    rounds: &[Round<CALLS>],
    whole: [usize; 2],
    part: [usize; 2],
    of: [usize; 2],
) {
    let [product, second] = [0, 1].map(|side| {
        median(rounds, |round| {
            (round[whole[side]] - round[part[side]]) / round[of[side]]
        })
    });
    println!("{title:44}{product:12.2}{second:12.2}");
}

/// Prints how many megabytes a second both give, at so many bytes a call.
pub fn print_rates<const CALLS: usize>(
    title: &str,
    rounds: &[Round<CALLS>],
    calls: [usize; 2],
    bytes: usize,
) {
    let [product, second] = calls.map(|call| bytes as f64 / median(rounds, |round| round[call]));
    println!("{title:44}{product:12.0}{second:12.0}");
}

/// What was timed, of which input, on how many qubits, and the bytes of the
/// table or circuit.
pub fn title(what: &str, name: &str, n: u32, bytes: usize) -> String {
    format!("{what:10}{name:24}{n:3}{bytes:7}")
}

/// Takes a value as if it were used, so that its making is not left out.
pub fn used<T>(value: T) {
    black_box(&value);
}
