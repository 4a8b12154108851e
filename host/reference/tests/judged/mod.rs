//! Tables as the documents print them, and their verdict.

use foq_reference::{plain_verdict, verdict};

/// A workspace that is just long enough.
pub const WORKSPACE: usize = 32_768;

/// The bytes of a row of hexadecimal numbers.
pub fn bytes(hexadecimal: &str) -> Vec<u8> {
    let words = hexadecimal.split_whitespace();
    words
        .map(|word| u8::from_str_radix(word, 16).unwrap())
        .collect()
}

/// The verdict, the same from the quick and the plain look for faults.
pub fn judged(table: &[u8], n: u32) -> u32 {
    let number = verdict(table, n, WORKSPACE);
    assert_eq!(number, plain_verdict(table, n, WORKSPACE));
    number
}
