//! The programs `target/bin/listing` and `target/bin/page` report an output that
//! cannot be written.

mod circuit_inputs;
mod programs;

use circuit_inputs::pairs;
use foq_generator::PAIRS;
use programs::{repository, scratch};
use std::fs::{self, File};
use std::process::Command;

/// Asserts that a program reports, once, that it cannot write what it prints of
/// this input.
fn assert_reported(name: &str, input: &[u8]) {
    let program = repository("target/bin").join(name);
    assert!(program.is_file(), "it is not built: run tools/archive");
    let file = scratch(&format!("full-output-{name}.input"));
    fs::write(&file, input).unwrap();
    let full = File::options().write(true).open("/dev/full").unwrap();
    let output = Command::new(program)
        .stdin(File::open(file).unwrap())
        .stdout(full)
        .output()
        .unwrap();
    let said = String::from_utf8(output.stderr).unwrap();
    assert_eq!(said, "standard output: No space left on device\n");
}

/// A circuit's listing, and the number of a refusal alone.
#[test]
fn the_listing_program_reports_it() {
    for n in [3, 32, 0] {
        assert_reported("listing", &[&[n], PAIRS].concat());
    }
}

/// A page of one band, of several, which ends with the first of them, and the
/// number of a refusal alone.
#[test]
fn the_page_program_reports_it() {
    for input in [pairs(3), pairs(32), b"no circuit".to_vec()] {
        assert_reported("page", &input);
    }
}
