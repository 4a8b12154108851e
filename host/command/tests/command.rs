//! The program `foq` at work: what it prints and writes, and its exit status.

use foq_generator::circuits::circuit_of;
use foq_generator::tables::{every_kind, two_in_sequence, without_removal};
use foq_generator::PAIRS;
use std::fs::{self, File};
use std::path::{Path, PathBuf};
use std::process::{Command, Output, Stdio};

/// The path of an example, as an argument.
fn example(file: &str) -> String {
    let examples = Path::new(env!("CARGO_MANIFEST_DIR")).join("../../examples");
    examples.join(file).to_str().unwrap().to_string()
}

/// A path for a file of a test, which is not there yet.
fn fresh(file: &str) -> PathBuf {
    let path = Path::new(env!("CARGO_TARGET_TMPDIR")).join(file);
    let _ = fs::remove_file(&path);
    path
}

/// The path of a file with these contents, as an argument.
fn file(name: &str, contents: &[u8]) -> String {
    let path = fresh(name);
    fs::write(&path, contents).unwrap();
    path.to_str().unwrap().to_string()
}

/// Runs `foq` with these arguments.
fn foq(arguments: &[&str]) -> Output {
    Command::new(env!("CARGO_BIN_EXE_foq"))
        .args(arguments)
        .output()
        .unwrap()
}

/// Asserts that `foq` ends well with exactly this output.
fn prints(arguments: &[&str], expected: &[u8]) {
    let output = foq(arguments);
    assert_eq!(output.status.code(), Some(0), "{arguments:?}: {output:?}");
    assert_eq!(output.stdout, expected, "{arguments:?}");
    assert_eq!(output.stderr, b"", "{arguments:?}");
}

/// Asserts that `foq` fails with this status and these words, and prints
/// nothing else.
fn fails(arguments: &[&str], status: i32, words: &str) {
    let output = foq(arguments);
    assert_eq!(
        output.status.code(),
        Some(status),
        "{arguments:?}: {output:?}"
    );
    assert_eq!(output.stdout, b"", "{arguments:?}");
    let said = String::from_utf8(output.stderr).unwrap();
    assert!(said.starts_with("foq: ") && said.contains(words), "{said}");
}

#[test]
fn tables_and_texts_are_judged_run_and_compiled_alike() {
    let listing = fs::read(example("pairs.listing")).unwrap();
    let page = fs::read(example("pairs.page")).unwrap();
    let qasm = fs::read(example("pairs.qasm")).unwrap();
    for pairs in &[example("pairs.foq"), example("pairs.foq.txt")] {
        prints(&["verdict", pairs, "3"], b"accepted\n");
        prints(&["run", pairs, "3", "3"], b"7\n");
        prints(&["run", pairs, "3", "0x3"], b"0x7\n");
        prints(&["run", pairs, "3", "0b111"], b"0b011\n");
        prints(&["list", pairs, "3"], &listing);
        prints(&["page", pairs, "3"], &page);
        prints(&["qasm", pairs, "3"], &qasm);
    }
}

#[test]
fn circuits_go_to_a_file_or_to_standard_output() {
    let pairs = example("pairs.foq.txt");
    let printed = foq(&["compile", &pairs, "3"]).stdout;
    let circuit = foq::circuit_read(&printed).unwrap();
    assert_eq!((circuit.qubits, circuit.ancillas, circuit.gates), (3, 3, 9));
    let out = fresh("pairs.circuit");
    prints(&["compile", &pairs, "3", out.to_str().unwrap()], b"");
    assert_eq!(fs::read(&out).unwrap(), printed);
}

#[test]
fn kept_circuits_are_listed_drawn_and_run_without_their_table() {
    let out = fresh("kept.circuit");
    let kept = out.to_str().unwrap();
    prints(&["compile", &example("pairs.foq"), "3", kept], b"");
    let listing = fs::read(example("pairs.listing")).unwrap();
    prints(&["circuit", "list", kept], &listing);
    let page = fs::read(example("pairs.page")).unwrap();
    prints(&["circuit", "page", kept], &page);
    let qasm = fs::read(example("pairs.qasm")).unwrap();
    prints(&["circuit", "qasm", kept], &qasm);
    prints(&["circuit", "run", kept, "0"], b"4\n");
    prints(&["circuit", "run", kept, "0b011"], b"0b111\n");
    // One qubit and two ancillas; a NOT of the second ancilla.
    let dirty = &file("dirty.circuit", &[1, 1, 2, 1, 0, 0, 0, 0, 3]);
    prints(
        &["circuit", "run", dirty, "0x1"],
        b"0x1\nancilla 3 ends at 1\n",
    );
}

#[test]
fn pages_go_on_in_further_bands() {
    let long = example("chained_substring.foq");
    let page = fs::read(example("chained_substring.page")).unwrap();
    // 93 gates on 21 wires.
    let lines = page.iter().filter(|byte| **byte == b'\n').count();
    assert_eq!(lines, 5 * 21);
    prints(&["page", &long, "6"], &page);
    // One qubit, an ancilla and no gate.
    let bare = &file("bare.circuit", &[1, 1, 1, 0, 0, 0, 0]);
    prints(&["circuit", "page", bare], b"   1\n   2\n");
}

#[test]
fn texts_and_tables_are_turned_into_each_other() {
    let out = fresh("assembled.foq");
    prints(
        &["assemble", &example("pairs.foq.txt"), out.to_str().unwrap()],
        b"",
    );
    assert_eq!(fs::read(&out).unwrap(), PAIRS);
    let text = foq(&["disassemble", out.to_str().unwrap()]).stdout;
    let again = fresh("again.foq");
    let text = file("disassembled.txt", &text);
    prints(&["assemble", &text, again.to_str().unwrap()], b"");
    assert_eq!(fs::read(&again).unwrap(), PAIRS);
    // A refused table has a text all the same.
    let wide = file("wide.foq", &two_in_sequence());
    assert_eq!(foq(&["disassemble", &wide]).status.code(), Some(0));
}

/// The table of a text that was printed.
fn assembled(name: &str, text: &[u8]) -> Vec<u8> {
    let text = file(&format!("{name}.txt"), text);
    let out = fresh(&format!("{name}.foq"));
    prints(&["assemble", &text, out.to_str().unwrap()], b"");
    fs::read(&out).unwrap()
}

#[test]
fn tables_and_texts_are_inverted_alike() {
    let subtractor = fs::read(example("subtractor.foq")).unwrap();
    let text = foq(&["disassemble", &example("subtractor.foq")]).stdout;
    for adder in &[example("adder.foq"), example("adder.foq.txt")] {
        let out = fresh("inverted_adder.foq");
        prints(&["inverse", adder, "7", out.to_str().unwrap()], b"");
        assert_eq!(fs::read(&out).unwrap(), subtractor);
        prints(&["inverse", adder, "7"], &text);
    }
    assert_eq!(assembled("printed_inverse", &text), subtractor);
}

#[test]
fn inverting_again_gives_the_bytes_back() {
    let there = &file("there.foq", &every_kind());
    let back = fresh("back.foq");
    let back = back.to_str().unwrap();
    prints(&["inverse", there, "5", back], b"");
    assert_ne!(fs::read(back).unwrap(), every_kind());
    let end = foq(&["run", there, "5", "0b01101"]).stdout;
    let end = str::from_utf8(&end).unwrap().trim();
    assert_ne!(end, "0b01101");
    prints(&["run", back, "5", end], b"0b01101\n");
    let text = foq(&["inverse", back, "5"]).stdout;
    assert_eq!(assembled("there_again", &text), every_kind());
    // A file may be replaced by its own inverse.
    prints(&["inverse", back, "5", back], b"");
    assert_eq!(fs::read(back).unwrap(), every_kind());
}

#[test]
fn help_is_printed() {
    let output = foq(&["--help"]);
    assert_eq!(output.status.code(), Some(0));
    let help = String::from_utf8(output.stdout).unwrap();
    for command in [
        "verdict",
        "run",
        "compile",
        "list",
        "page",
        "qasm",
        "inverse",
        "assemble",
        "disassemble",
        "circuit run",
        "circuit list",
        "circuit page",
        "circuit qasm",
    ] {
        assert!(help.contains(&format!("foq {command} FILE")), "{command}");
    }
}

/// Asserts that `foq` ends with a refusal in these words.
fn refused(arguments: &[&str], words: &str) {
    fails(arguments, 1, words);
}

#[test]
fn refusals_end_with_status_1_in_words() {
    let pairs = &example("pairs.foq");
    refused(&["verdict", pairs, "0"], "refusal 9: n is not 1 to 32");
    refused(&["run", pairs, "3", "8"], "refusal 13: a start word");
    let empty = &file("empty", b"");
    refused(&["verdict", empty, "3"], "refusal 1: the table stops");
    refused(&["disassemble", empty], "refusal 1: ");
    let edition = &file("edition_2", &[2, 0, 0, 0]);
    refused(&["verdict", edition, "3"], "refusal 2: ");
    let kind = &file("kind_12", &[1, 0, 0, 12]);
    refused(&["disassemble", kind], "refusal 4: ");
    let endless = &file("endless", &without_removal());
    refused(&["list", endless, "3"], "refusal 10: ");
    let wide = &file("wide", &two_in_sequence());
    refused(&["qasm", wide, "3"], "refusal 11: ");
    let long = &example("chained_substring.foq");
    refused(&["compile", long, "32"], "refusal 23: ");
    refused(&["inverse", pairs, "33"], "pairs.foq: refusal 9: ");
    refused(&["inverse", kind, "3"], "refusal 4: ");
    refused(&["inverse", wide, "3"], "refusal 11: ");
    refused(&["page", long, "32"], "refusal 23: ");
    for what in ["list", "page", "qasm"] {
        let words = "pairs.foq: refusal 14: the circuit is not well formed";
        refused(&["circuit", what, pairs], words);
    }
    refused(&["circuit", "run", pairs, "0"], "pairs.foq: refusal 14: ");
    let one = &file("one_qubit.circuit", &[1, 1, 0, 0, 0, 0, 0]);
    refused(&["circuit", "run", one, "2"], "refusal 13: a start word");
}

#[test]
fn a_refused_compile_or_inverse_writes_no_file() {
    let fault = &file("fault.txt", b":: q[4] *= NOT;");
    let out = fresh("not_written");
    let words = "fault.txt: refusal 12: a NOT or qcase on a position outside its list";
    for command in ["compile", "inverse"] {
        refused(&[command, fault, "3", out.to_str().unwrap()], words);
        assert!(!out.exists(), "{command}");
    }
}

/// Asserts that `foq` ends with words on its arguments or its text.
fn misused(arguments: &[&str], words: &str) {
    fails(arguments, 2, words);
}

#[test]
fn wrong_arguments_end_with_status_2() {
    let pairs = &example("pairs.foq");
    misused(&[], "a command is missing; `foq --help` says more");
    misused(&["draw", pairs, "3"], "draw is no command; `foq --help`");
    misused(&["", pairs, "3"], " is no command; ");
    misused(
        &["run", pairs, "3"],
        "run takes other arguments: foq run FILE N WORD; ",
    );
    misused(
        &["inverse", pairs],
        "inverse takes other arguments: foq inverse FILE N [OUT]; ",
    );
    misused(
        &["circuit", pairs],
        "circuit takes other arguments: foq circuit run FILE WORD, foq circuit list FILE, foq circuit page FILE, foq circuit qasm FILE; ",
    );
    misused(&["--help", pairs], "takes other arguments: foq --help; ");
    misused(&["verdict", pairs, "three"], "three is no number of qubits");
    for word in ["", "0x", "0b2", "-1", "+1", "0x+1", "18446744073709551616"] {
        misused(&["run", pairs, "3", word], "is no word of at most 64 bits");
    }
    let text = &example("pairs.foq.txt");
    misused(&["disassemble", text], "pairs.foq.txt is a text already");
    misused(&["assemble", pairs, "out"], "pairs.foq is no text");
}

#[test]
fn files_that_cannot_be_read_or_written_end_with_status_2() {
    let missing = fresh("missing/file");
    let missing = missing.to_str().unwrap();
    misused(&["verdict", missing, "3"], "missing/file: ");
    let pairs = &example("pairs.foq.txt");
    misused(&["compile", pairs, "3", missing], "missing/file: ");
    misused(&["inverse", pairs, "3", missing], "missing/file: ");
    misused(&["assemble", pairs, missing], "missing/file: ");
}

/// A circuit that is long in every form: as many gates as there can be, on all
/// wires.
fn long_circuit(name: &str) -> String {
    file(name, &circuit_of(32, 223, &vec![[0, 1]; 32_764]))
}

#[test]
fn what_nobody_reads_on_is_no_failure() {
    let long = &long_circuit("unread.circuit");
    for what in ["list", "page", "qasm"] {
        let mut child = Command::new(env!("CARGO_BIN_EXE_foq"))
            .args(["circuit", what, long])
            .stdout(Stdio::piped())
            .stderr(Stdio::piped())
            .spawn()
            .unwrap();
        drop(child.stdout.take());
        let output = child.wait_with_output().unwrap();
        assert_eq!(output.status.code(), Some(0), "{what}: {output:?}");
        assert_eq!(output.stderr, b"", "{what}");
    }
}

#[test]
fn what_cannot_be_written_ends_with_status_2() {
    let long = &long_circuit("unwritten.circuit");
    for what in ["list", "page", "qasm"] {
        let full = File::options().write(true).open("/dev/full").unwrap();
        let output = Command::new(env!("CARGO_BIN_EXE_foq"))
            .args(["circuit", what, long])
            .stdout(full)
            .output()
            .unwrap();
        assert_eq!(output.status.code(), Some(2), "{what}: {output:?}");
        assert!(output.stderr.starts_with(b"foq: standard output: "));
    }
}

#[test]
fn wrong_texts_end_with_status_2() {
    let bad = &file("bad.txt", b"\n:: q[1] *= NOT");
    let words = "bad.txt: line 2, column 15: expected `;`, found the end of the text";
    misused(&["verdict", bad, "3"], words);
    let latin = &file("latin.txt", b":: skip;\n/* M\xe4rz */");
    let words = "latin.txt: line 2, column 5: a byte that is not UTF-8";
    misused(&["list", latin, "3"], words);
}

#[test]
fn the_deepest_text_is_walked() {
    let deep = format!(":: {}skip;{}", "{".repeat(999), "}".repeat(999));
    let deep = &file("deep.txt", deep.as_bytes());
    prints(&["verdict", deep, "1"], b"accepted\n");
}
