//! `foq`: verdict, run, circuit and inverse of a FOQ program, for people at a
//! shell.
//!
//! Verdict, run, compile, inverse, the circuit run, listings and the bands of a
//! page are the proved functions of `libfoq.a`. This program stands outside of
//! what is proved: it reads files, turns texts into tables and back and listings
//! into OpenQASM, and says refusals in words.

#![deny(clippy::unwrap_used, clippy::expect_used, clippy::panic)]

mod failure;
mod source;
mod word;

use failure::Failure;
use foq::{Refusal, LEAST_WORKSPACE};
use foq_command::qasm::qasm;
use foq_command::{bytes, text};
use source::{contents, Source};
use std::env;
use std::ffi::{OsStr, OsString};
use std::fs;
use std::io::{self, ErrorKind, Write};
use std::path::PathBuf;
use std::process::ExitCode;
use word::{word, Form};

const HELP: &str = "\
foq: verdict, run, circuit and inverse of a FOQ program

    foq verdict FILE N           whether the program is accepted on N qubits
    foq run FILE N WORD          the word that a run from WORD ends with
    foq compile FILE N [OUT]     the circuit, into OUT or to standard output
    foq list FILE N              the circuit as a listing
    foq page FILE N              the circuit drawn on a page of 80 columns
    foq qasm FILE N              the circuit in OpenQASM 3
    foq inverse FILE N [OUT]     the inverse, as a table into OUT or as a text
    foq assemble FILE OUT        the table of a text, into OUT
    foq disassemble FILE         the text of a table
    foq circuit run FILE WORD    the word that a kept circuit ends with
    foq circuit list FILE        a kept circuit as a listing
    foq circuit page FILE        a kept circuit drawn on a page
    foq circuit qasm FILE        a kept circuit in OpenQASM 3
    foq --help                   this text

FILE is a table or a text, behind `circuit` what `foq compile` wrote;
docs/TEXT.md says how a text is written. WORD is decimal, or behind 0x or 0b;
its lowest bit is qubit 1. The inverse is the program whose runs undo those of
FILE; without OUT its text is printed, as by `foq disassemble`. A refusal ends
with status 1; wrong arguments, a wrong text or a file that cannot be read or
written with status 2.

Verdict, run, compile, inverse, the run of a circuit, its listing and each band
of its page are proved. Texts and OpenQASM are not.
";

fn main() -> ExitCode {
    let arguments: Vec<OsString> = env::args_os().skip(1).collect();
    let arguments: Vec<&OsStr> = arguments.iter().map(OsString::as_os_str).collect();
    match command(&arguments) {
        Ok(()) => ExitCode::SUCCESS,
        Err(failure) => {
            eprintln!("foq: {failure}");
            failure.status()
        }
    }
}

/// Does what the arguments ask for.
fn command(arguments: &[&OsStr]) -> Result<(), Failure> {
    let Some((&command, arguments)) = arguments.split_first() else {
        return Err(Failure::Usage("a command is missing".to_string()));
    };
    match (command.to_str(), arguments) {
        (Some("verdict"), &[file, n]) => verdict(file, n),
        (Some("run"), &[file, n, word]) => run(file, n, word),
        (Some("compile"), &[file, n]) => say(&compiled(file, n)?),
        (Some("compile"), &[file, n, out]) => write(out, &compiled(file, n)?),
        (Some("list"), &[file, n]) => list(file, &compiled(file, n)?),
        (Some("page"), &[file, n]) => print_page(file, &compiled(file, n)?),
        (Some("qasm"), &[file, n]) => print_qasm(file, &compiled(file, n)?),
        (Some("inverse"), &[file, n]) => print_text(file, &inverted(file, n)?),
        (Some("inverse"), &[file, n, out]) => write(out, &inverted(file, n)?),
        (Some("assemble"), &[file, out]) => assemble(file, out),
        (Some("disassemble"), &[file]) => disassemble(file),
        (Some("circuit"), &[what, file]) if what == "list" => list(file, &contents(file)?),
        (Some("circuit"), &[what, file]) if what == "page" => print_page(file, &contents(file)?),
        (Some("circuit"), &[what, file]) if what == "qasm" => print_qasm(file, &contents(file)?),
        (Some("circuit"), &[what, file, word]) if what == "run" => run_circuit(file, word),
        (Some("--help"), &[]) => say(HELP.as_bytes()),
        _ => Err(usage(command, &misuse(command))),
    }
}

/// What is wrong with a command that does not take its arguments: the help's
/// lines on it say which it takes.
fn misuse(command: &OsStr) -> String {
    let beginning = format!("foq {} ", command.display());
    let lines = HELP.lines().map(str::trim_start);
    let takes: Vec<&str> = lines
        .filter(|line| line.starts_with(&beginning))
        .filter_map(|line| line.split("  ").next())
        .collect();
    match takes.is_empty() {
        true => "is no command".to_string(),
        false => format!("takes other arguments: {}", takes.join(", ")),
    }
}

/// `foq verdict FILE N`.
fn verdict(file: &OsStr, n: &OsStr) -> Result<(), Failure> {
    let n = qubits(n)?;
    let table = Source::read(file)?.table();
    foq::verdict(&table, n, &mut workspace()).map_err(refused(file))?;
    say(b"accepted\n")
}

/// `foq run FILE N WORD`: the end word, written as WORD is.
fn run(file: &OsStr, n: &OsStr, start: &OsStr) -> Result<(), Failure> {
    let n = qubits(n)?;
    let (start, form) = start_word(start)?;
    let table = Source::read(file)?.table();
    let end = foq::run(&table, n, start, &mut workspace()).map_err(refused(file))?;
    say(format!("{}\n", form.show(end, n)).as_bytes())
}

/// The bytes of a program's circuit.
fn compiled(file: &OsStr, n: &OsStr) -> Result<Vec<u8>, Failure> {
    let n = qubits(n)?;
    foq::compile_to_vec(&Source::read(file)?.table(), n).map_err(refused(file))
}

/// The table of a program's inverse.
fn inverted(file: &OsStr, n: &OsStr) -> Result<Vec<u8>, Failure> {
    let n = qubits(n)?;
    foq::inverse_to_vec(&Source::read(file)?.table(), n).map_err(refused(file))
}

/// The listing of a circuit, if it is well formed.
fn listing(file: &OsStr, circuit: &[u8]) -> Result<String, Failure> {
    foq::circuit_list_to_string(circuit).map_err(refused(file))
}

/// `foq list FILE N` and `foq circuit list FILE`, with the circuit's bytes.
fn list(file: &OsStr, circuit: &[u8]) -> Result<(), Failure> {
    say(listing(file, circuit)?.as_bytes())
}

/// `foq page FILE N` and `foq circuit page FILE`, with the circuit's bytes. A
/// page may be long: it is written band by band, as far as it is read.
fn print_page(file: &OsStr, circuit: &[u8]) -> Result<(), Failure> {
    let mut output = io::stdout().lock();
    match foq::write_page(circuit, &mut output) {
        Ok(Ok(())) => as_far_as_read(output.flush()),
        Ok(Err(refusal)) => Err(refused(file)(refusal)),
        Err(error) => as_far_as_read(Err(error)),
    }
}

/// `foq qasm FILE N` and `foq circuit qasm FILE`, with the circuit's bytes.
/// Every listing has its program.
fn print_qasm(file: &OsStr, circuit: &[u8]) -> Result<(), Failure> {
    let program = qasm(&listing(file, circuit)?).ok_or(Refusal::NOT_WELL_FORMED);
    say(program.map_err(refused(file))?.as_bytes())
}

/// `foq circuit run FILE WORD`: the data wires, written as WORD is. The ancillas
/// of a circuit that was compiled end at 0; where one does not, it is named.
fn run_circuit(file: &OsStr, start: &OsStr) -> Result<(), Failure> {
    let (start, form) = start_word(start)?;
    let block = foq::circuit_run(&contents(file)?, start).map_err(refused(file))?;
    let mut said = format!("{}\n", form.show(block.word(), block.data.into()));
    let wires = block.data + 1..=block.data + block.ancillas;
    for ancilla in wires.filter(|&wire| block.holds(wire)) {
        said += &format!("ancilla {ancilla} ends at 1\n");
    }
    say(said.as_bytes())
}

/// `foq assemble FILE OUT`.
fn assemble(file: &OsStr, out: &OsStr) -> Result<(), Failure> {
    match Source::read(file)? {
        Source::Text(program) => write(out, &bytes::encode(&program)),
        Source::Table(_) => Err(usage(file, "is no text")),
    }
}

/// `foq disassemble FILE`.
fn disassemble(file: &OsStr) -> Result<(), Failure> {
    match Source::read(file)? {
        Source::Table(table) => print_text(file, &table),
        Source::Text(_) => Err(usage(file, "is a text already")),
    }
}

/// `foq disassemble FILE` and `foq inverse FILE N`, with the table's bytes.
/// Tables that read have a text, accepted or not; an inverse reads.
fn print_text(file: &OsStr, table: &[u8]) -> Result<(), Failure> {
    match bytes::decode(table) {
        Some(program) => say(text::print(&program).as_bytes()),
        None => Err(refused(file)(unreadable(table))),
    }
}

/// Why a table does not read: one of the refusals 1 to 8, which the verdict
/// gives on every number of qubits.
fn unreadable(table: &[u8]) -> Refusal {
    let refused = foq::verdict(table, 1, &mut workspace()).err();
    refused.unwrap_or(Refusal::TABLE_STOPS)
}

/// A workspace that is long enough.
fn workspace() -> Vec<u8> {
    vec![0; LEAST_WORKSPACE]
}

/// The number of qubits; any number will do, since the verdict judges it.
fn qubits(written: &OsStr) -> Result<u32, Failure> {
    let number = written.to_str().and_then(|digits| digits.parse().ok());
    number.ok_or_else(|| usage(written, "is no number of qubits"))
}

/// A start word and how it is written.
fn start_word(written: &OsStr) -> Result<(u64, Form), Failure> {
    let word = written.to_str().and_then(word);
    word.ok_or_else(|| usage(written, "is no word of at most 64 bits"))
}

/// A refusal of what a file holds.
fn refused(file: &OsStr) -> impl Fn(Refusal) -> Failure + '_ {
    move |refusal| Failure::Refused(PathBuf::from(file), refusal)
}

/// Wrong use of an argument.
fn usage(argument: &OsStr, words: &str) -> Failure {
    Failure::Usage(format!("{} {words}", argument.display()))
}

/// Writes to standard output, as far as it is read.
fn say(bytes: &[u8]) -> Result<(), Failure> {
    let mut output = io::stdout().lock();
    as_far_as_read(output.write_all(bytes).and_then(|()| output.flush()))
}

/// What came of writing to standard output. That nobody reads on is no failure.
fn as_far_as_read(written: io::Result<()>) -> Result<(), Failure> {
    match written {
        Err(error) if error.kind() != ErrorKind::BrokenPipe => {
            Err(Failure::File(PathBuf::from("standard output"), error))
        }
        _ => Ok(()),
    }
}

/// Writes a file.
fn write(out: &OsStr, bytes: &[u8]) -> Result<(), Failure> {
    fs::write(out, bytes).map_err(|error| Failure::File(PathBuf::from(out), error))
}
