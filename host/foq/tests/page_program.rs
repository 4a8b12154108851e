//! The page program, `target/bin/page`, prints what the second interpreter
//! prints, whatever it reads.

mod circuit_inputs;
mod counts;
mod programs;

use circuit_inputs::{any_bytes, any_circuit, long_circuit, pairs};
use counts::{assert_reached, count, Counts};
use foq_generator::damage::damaged;
use foq_generator::Random;
use foq_reference::{page, LONGEST_CIRCUIT};
use programs::{printed, repository, scratch};
use std::fs;
use std::io::Write;
use std::path::{Path, PathBuf};
use std::process::{Command, Stdio};
use std::thread;
use std::time::Duration;

fn page_program() -> PathBuf {
    let program = repository("target/bin/page");
    assert!(program.is_file(), "it is not built: run tools/archive");
    program
}

/// Asserts what a program that is started like this prints, that it says
/// nothing else and ends with status 0.
fn assert_prints(program: &Path, arguments: &[&str], input: &[u8], counts: &mut Counts) {
    let expected = page(input);
    assert!(printed(program, arguments, input) == expected);
    let refused = expected == b"14\n";
    count(counts, "14", refused);
    count(counts, "a page", !refused);
    // A pipe holds so much: the program must wait for its reader.
    count(counts, "more than a pipe holds", expected.len() > 1 << 16);
}

/// Bytes of any kind: a circuit, one that is damaged, or random ones.
fn any_input(random: &mut Random, turn: usize) -> Vec<u8> {
    match turn % 3 {
        0 => any_circuit(random),
        1 => {
            let whole = any_circuit(random);
            damaged(random, &whole)
        }
        _ => any_bytes(random),
    }
}

#[test]
fn the_program_prints_pages_alike() {
    let program = page_program();
    let mut random = Random::from_seed(81);
    let mut counts = Counts::new();
    for turn in 0..3_000 {
        let input = any_input(&mut random, turn);
        assert_prints(&program, &[], &input, &mut counts);
    }
    for n in 1..=32 {
        assert_prints(&program, &[], &pairs(n), &mut counts);
    }
    let least = [
        ("a page", 1_000),
        ("14", 1_500),
        ("more than a pipe holds", 30),
    ];
    assert_reached(&counts, &least);
}

/// Inputs about the longest circuit's length and far longer ones: circuits but
/// for their length, one circuit with bytes behind it, and other bytes.
fn long_inputs() -> Vec<Vec<u8>> {
    let mut random = Random::from_seed(82);
    let longest = long_circuit(LONGEST_CIRCUIT, 2, 0);
    let mut inputs = vec![
        vec![],
        long_circuit(LONGEST_CIRCUIT - 1, 2, 0),
        longest.clone(),
        long_circuit(LONGEST_CIRCUIT, 32, 223),
        [longest, vec![0]].concat(),
    ];
    for length in [LONGEST_CIRCUIT + 1, LONGEST_CIRCUIT + 2, 200_000] {
        inputs.push(long_circuit(length, 2, 0));
        inputs.push(vec![1; length]);
        inputs.push((0..length).map(|_| random.byte()).collect());
    }
    inputs
}

#[test]
fn long_inputs_are_printed_alike() {
    let program = page_program();
    let mut counts = Counts::new();
    for input in long_inputs() {
        assert_prints(&program, &[], &input, &mut counts);
    }
    assert_eq!((counts["a page"], counts["14"]), (3, 11));
}

/// The input comes in pieces, so that a read gives no more than one of them:
/// the program has the time to ask for the next one.
#[test]
fn an_input_in_pieces_is_printed_alike() {
    let circuit = pairs(32);
    let mut child = Command::new(page_program())
        .stdin(Stdio::piped())
        .stdout(Stdio::piped())
        .spawn()
        .unwrap();
    let mut pipe = child.stdin.take().unwrap();
    for piece in circuit.chunks(100) {
        pipe.write_all(piece).unwrap();
        thread::sleep(Duration::from_millis(20));
    }
    drop(pipe);
    let output = child.wait_with_output().unwrap();
    assert!(output.status.success());
    assert!(output.stdout == page(&circuit));
}

/// Where files are named it prints their pages one behind the other; `-` is
/// standard input.
#[test]
fn the_pages_of_named_files_are_printed_in_turn() {
    let (first, second) = (pairs(3), pairs(20));
    let inputs = [&first, &b"no circuit".to_vec(), &second];
    let names = ["page-1.circuit", "page-2.circuit", "page-3.circuit"].map(scratch);
    for (name, input) in names.iter().zip(inputs) {
        fs::write(name, input).unwrap();
    }
    let [one, none, two] = names.each_ref().map(|name| name.to_str().unwrap());
    let given = printed(&page_program(), &[one, "-", none, two], &pairs(5));
    let expected = [
        page(&first),
        page(&pairs(5)),
        b"14\n".to_vec(),
        page(&second),
    ];
    assert!(given == expected.concat());
}

#[test]
#[ignore = "needs valgrind, and takes a minute"]
fn nothing_unset_is_used_by_the_program() {
    let program = page_program();
    let arguments = ["--quiet", "--error-exitcode=1", program.to_str().unwrap()];
    let mut random = Random::from_seed(83);
    let mut counts = Counts::new();
    let any = (0..60).map(|turn| any_input(&mut random, turn));
    let inputs: Vec<Vec<u8>> = any
        .chain(long_inputs())
        .chain([pairs(3), pairs(32)])
        .collect();
    for input in inputs {
        assert_prints(Path::new("valgrind"), &arguments, &input, &mut counts);
    }
    assert_reached(&counts, &[("a page", 25), ("14", 40)]);
}
