//! C programs: compiled with every warning an error, and run on their input.

// Each test uses a part of this.
#![allow(dead_code)]

use std::fs;
use std::io::Write;
use std::path::{Path, PathBuf};
use std::process::{Command, Output, Stdio};
use std::thread;

/// The header, with a C program in its first comment.
pub const HEADER: &str = include_str!("../../../include/foq.h");

/// A compiler with the arguments that make it one of its language.
pub type Compiler<'a> = &'a [&'a str];

/// C as the header asks for.
pub const C11: Compiler = &["cc", "-std=c11", "-Wstrict-prototypes"];

/// The same programs as C++.
pub const CPP: Compiler = &["c++", "-x", "c++", "-std=c++11"];

/// C with the checks of two sanitizers, of which each ends the program.
pub const SANITIZED: Compiler = &[
    "cc",
    "-std=c11",
    "-g",
    "-fsanitize=address,undefined",
    "-fno-sanitize-recover=all",
];

const WARNINGS: [&str; 7] = [
    "-Wall",
    "-Wextra",
    "-Wpedantic",
    "-Wconversion",
    "-Wshadow",
    "-Wcast-qual",
    "-Werror",
];

/// A path within the repository.
pub fn repository(path: &str) -> PathBuf {
    Path::new(env!("CARGO_MANIFEST_DIR"))
        .join("../..")
        .join(path)
}

/// A path for what the tests write.
pub fn scratch(name: &str) -> PathBuf {
    Path::new(env!("CARGO_TARGET_TMPDIR")).join(name)
}

/// Compiles a source into a program of this name, with these flags behind it.
pub fn compile(source: &Path, compiler: Compiler, name: &str, flags: &[String]) -> PathBuf {
    let program = scratch(name);
    let status = Command::new(compiler[0])
        .args(&compiler[1..])
        .args(WARNINGS)
        .args(["-O2", "-pthread"])
        .arg(source)
        .args(["-x", "none"])
        .args(flags)
        .arg("-o")
        .arg(&program)
        .status();
    assert!(status.unwrap().success(), "{compiler:?} {source:?}");
    program
}

/// The flags for the header and the archive as they stand in the repository.
pub fn flags() -> [String; 2] {
    let include = repository("host/include");
    let archive = repository("target/staticlib/libfoq.a");
    [
        format!("-I{}", include.display()),
        archive.display().to_string(),
    ]
}

/// Compiles a program of `host/c`. Programs of several tests need different
/// names.
pub fn compiled(source: &str, compiler: Compiler, name: &str) -> PathBuf {
    let source = repository("host/c").join(source);
    compile(&source, compiler, name, &flags())
}

/// Runs a program with these arguments on these bytes.
pub fn output(program: &Path, arguments: &[&str], input: &[u8]) -> Output {
    let mut child = Command::new(program)
        .args(arguments)
        .stdin(Stdio::piped())
        .stdout(Stdio::piped())
        .stderr(Stdio::piped())
        .spawn()
        .unwrap();
    let mut pipe = child.stdin.take().unwrap();
    thread::scope(|scope| {
        // A program that wants no more input than it has read closes the pipe.
        scope.spawn(move || {
            let _ = pipe.write_all(input);
        });
        child.wait_with_output().unwrap()
    })
}

/// What a program prints, which ends without an error.
pub fn printed(program: &Path, arguments: &[&str], input: &[u8]) -> Vec<u8> {
    let output = output(program, arguments, input);
    let said = String::from_utf8_lossy(&output.stderr);
    assert!(said.is_empty() && output.status.success(), "{said}");
    output.stdout
}

/// The code in a comment of the header, from the line that begins so to the
/// next line that is this one.
fn commented(beginning: &str, last: &str) -> String {
    const INDENT: &str = " *     ";
    let start = HEADER.find(&format!("{INDENT}{beginning}")).unwrap();
    let end = format!("\n{INDENT}{last}\n");
    let (code, _) = HEADER[start..].split_once(&end).unwrap();
    let lines = code
        .lines()
        .map(|line| line.strip_prefix(INDENT).unwrap_or(""));
    let lines: Vec<&str> = lines.chain([last, ""]).collect();
    lines.join("\n")
}

/// Writes the program of the header's first comment to a file.
pub fn example(name: &str) -> PathBuf {
    let file = scratch(name);
    fs::write(&file, commented("#include", "}")).unwrap();
    file
}

/// Writes a program to a file that prints the page of the circuit which it
/// reads, with the loop that the header shows.
pub fn page_example(name: &str) -> PathBuf {
    const BEFORE: &str = "\
#include <stdio.h>
#include \"foq.h\"

static uint8_t circuit[FOQ_MOST_CIRCUIT + 1];
static uint8_t text[FOQ_MOST_BAND];

int main(void)
{
    size_t length = fread(circuit, 1, sizeof circuit, stdin);
";
    let page = commented("uint64_t place", "} while (place != 0);");
    let file = scratch(name);
    fs::write(&file, [BEFORE, &page, "    return 0;\n}\n"].concat()).unwrap();
    file
}
