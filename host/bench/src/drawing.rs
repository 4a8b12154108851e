//! The page of a circuit. The product puts every band into one text, each over
//! the one before it, and nothing joins them; the second interpreter gives the
//! whole page at once.

use crate::pairs_circuit;
use crate::rows::{print_rates, print_row, title, used};
use crate::timing::rounds;
use foq::{page_band, write_page, MOST_BAND};
use foq_generator::circuits::{circuit, circuit_of};
use foq_generator::Random;
use foq_reference::{page, LONGEST_CIRCUIT};
use std::hint::black_box;

/// Circuits and their names. The last one has the longest page there is.
fn cases() -> [(&'static str, Vec<u8>); 4] {
    let mut random = Random::from_seed(53);
    // From the first wire to the last, so that every row has a mark or a bar.
    let swap: &[u8] = &[4, 1, 255];
    let mut gates: Vec<&[u8]> = vec![&[0, 1]; 32_764];
    gates[0] = swap;
    [
        ("PAIRS, n = 32", pairs_circuit()),
        (
            "random gates",
            circuit(&mut random, 32, 32, LONGEST_CIRCUIT),
        ),
        (
            "21,843 swaps, 255 wires",
            circuit_of(32, 223, &vec![swap; 21_843]),
        ),
        ("32,763 NOTs and a swap", circuit_of(32, 223, &gates)),
    ]
}

/// Asserts that both draw the same page, and gives its length.
fn page_length(circuit: &[u8]) -> usize {
    let mut product = Vec::new();
    write_page(circuit, &mut product).unwrap().unwrap();
    assert!(product == page(circuit));
    product.len()
}

/// Puts one band after another into the text.
fn draw(circuit: &[u8], text: &mut [u8]) {
    let mut place = 0;
    loop {
        let band = page_band(circuit, place, text).unwrap();
        used(&text[..band.length]);
        if band.next == 0 {
            return;
        }
        place = band.next;
    }
}

fn print_case(name: &str, circuit: &[u8], text: &mut [u8]) {
    let length = page_length(circuit);
    let bytes = circuit.len();
    let circuit = || black_box(circuit);
    let rounds = rounds([&mut || draw(circuit(), text), &mut || used(page(circuit()))]);
    print_row(&title("page", name, 32, bytes), &rounds, [0, 1]);
    let drawn = format!("page of {length} bytes");
    print_rates(&title(" MB/s", &drawn, 32, bytes), &rounds, [0, 1], length);
}

/// Prints the rows of every circuit.
pub fn print() {
    let text = &mut vec![0; MOST_BAND];
    for (name, circuit) in cases() {
        print_case(name, &circuit, text);
    }
}
