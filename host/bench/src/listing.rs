//! The listing of a circuit, into a text that is always long enough. A text that
//! is just as long as the listing takes it too, but there it is measured first.

use crate::pairs_circuit;
use crate::rows::{print_rates, print_row, title, used};
use crate::timing::rounds;
use foq::MOST_LISTING;
use foq_generator::circuits::{circuit, circuit_of, longest_listing};
use foq_generator::Random;
use foq_reference::{circuit_list, LONGEST_CIRCUIT};
use std::hint::black_box;

/// Circuits and their names. The last one has the longest listing that is known.
fn cases() -> [(&'static str, Vec<u8>); 4] {
    let mut random = Random::from_seed(54);
    [
        ("PAIRS, n = 32", pairs_circuit()),
        (
            "random gates",
            circuit(&mut random, 32, 32, LONGEST_CIRCUIT),
        ),
        (
            "21,843 swaps, 255 wires",
            circuit_of(32, 223, &vec![[4, 254, 255]; 21_843]),
        ),
        ("32,763 NOTs and a swap", longest_listing()),
    ]
}

/// Asserts that both give the same listing, and gives its length.
fn listing_length(circuit: &[u8]) -> usize {
    let product = foq::circuit_list_to_string(circuit).unwrap().into_bytes();
    assert!(product == circuit_list(circuit, MOST_LISTING).unwrap());
    product.len()
}

fn print_case(name: &str, circuit: &[u8], length: usize, text: &mut [u8]) {
    let (bytes, room) = (circuit.len(), text.len());
    let circuit = || black_box(circuit);
    let rounds = rounds([
        &mut || used(foq::circuit_list(circuit(), text)),
        &mut || used(circuit_list(circuit(), room)),
    ]);
    print_row(&title("list", name, 32, bytes), &rounds, [0, 1]);
    let listed = format!("listing of {length} bytes");
    print_rates(&title(" MB/s", &listed, 32, bytes), &rounds, [0, 1], length);
}

/// Prints the rows of every circuit, and those of the last one once more with a
/// text that is just long enough.
pub fn print() {
    let text = &mut vec![0; MOST_LISTING];
    for (name, circuit) in cases() {
        print_case(name, &circuit, listing_length(&circuit), text);
    }
    let longest = longest_listing();
    let length = listing_length(&longest);
    print_case(
        "the same, measured first",
        &longest,
        length,
        &mut text[..length],
    );
}
