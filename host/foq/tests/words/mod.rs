//! Start words of n qubits, and random programs to run from some of them.

// Each test uses a part of this.
#![allow(dead_code)]

use foq_generator::programs::{program, Shape, LARGE, MERGING, SMALL};
use foq_generator::tree::encode;
use foq_generator::Random;

/// Every word.
pub fn every_word(n: u32) -> impl Iterator<Item = u64> {
    0..1 << n
}

/// Tables of random programs of a shape, each with one of these numbers of
/// qubits in turn.
pub fn on_few_qubits<'a>(
    random: &'a mut Random,
    shape: &'a Shape,
    tables: usize,
    qubits: &'a [u32],
) -> impl Iterator<Item = (Vec<u8>, u32)> + 'a {
    let in_turn = qubits.iter().cycle().take(tables);
    in_turn.map(|&n| (encode(&program(random, shape)), n))
}

/// The lowest and the highest word, and this many others.
pub fn sampled(random: &mut Random, n: u32, others: usize) -> Vec<u64> {
    let past = 1 << n;
    let between = (0..others).map(|_| random.word() % past);
    [0, past - 1].into_iter().chain(between).collect()
}

/// Tables of random programs of every shape, each with a number of qubits from
/// `least` to 32 and some words.
pub fn on_many_qubits(
    random: &mut Random,
    tables: usize,
    least: u32,
) -> impl Iterator<Item = (Vec<u8>, u32, Vec<u64>)> + '_ {
    (0..tables).map(move |turn| {
        let shape = [SMALL, MERGING, MERGING, LARGE][turn % 4];
        let table = encode(&program(random, &shape));
        let n = least + random.below(33 - least as usize) as u32;
        let words = sampled(random, n, 4);
        (table, n, words)
    })
}
