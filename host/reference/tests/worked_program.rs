//! What the program `crates/worked` must print: the second interpreter answers
//! its cases alike, and they are those of document 01.

use foq_generator::tables::closed_through_a_call;
use foq_generator::tree::{table, Number, Statement};
use foq_reference::{compile, run, verdict, SHORTEST_WORKSPACE};
use std::fs;

/// The names of the cases, one to a line.
const NAMES: &str = include_str!("../../../crates/worked/args");
/// What the program must print, a line for each case.
const PRINTED: &str = include_str!("../../../crates/worked/stdout");
/// The files of the cases.
const FOLDER: &str = concat!(env!("CARGO_MANIFEST_DIR"), "/../../crates/worked/data");

/// The byte n, a start word, the length of the room and a table, which the
/// file has in hexadecimal.
fn case(name: &str) -> Vec<u8> {
    let text = fs::read_to_string(format!("{FOLDER}/{name}")).unwrap();
    let bytes = text.split_whitespace();
    bytes
        .map(|byte| u8::from_str_radix(byte, 16).unwrap())
        .collect()
}

/// "A refusal gives its number and otherwise zeros."
fn numbers(answer: Result<u64, u32>) -> String {
    match answer {
        Ok(value) => format!("0 {value}"),
        Err(number) => format!("{number} 0"),
    }
}

fn answered(name: &str) -> String {
    let case = case(name);
    let [n, word, room, table @ ..] = case.as_slice() else {
        panic!("{name} is too short");
    };
    let n = u32::from(*n);
    let judged = verdict(table, n, SHORTEST_WORKSPACE);
    let ran = run(table, n, u64::from(*word), SHORTEST_WORKSPACE);
    let circuit = compile(table, n, usize::from(*room), SHORTEST_WORKSPACE);
    let length = circuit.map(|bytes| bytes.len() as u64);
    format!(
        "{name} verdict {judged} run {} compile {}\n",
        numbers(ran),
        numbers(length)
    )
}

#[test]
fn the_program_prints_what_the_second_interpreter_answers() {
    let lines: String = NAMES.lines().map(answered).collect();
    assert_eq!(lines, PRINTED);
}

/// Checks a case's n, its table and the numbers that verdict and compile give.
fn check(name: &str, n: u8, expected: &[u8], judged: u32, compiled: u32) {
    let case = case(name);
    assert_eq!((case[0], &case[3..]), (n, expected), "{name}");
    let line = PRINTED
        .lines()
        .find(|line| line.starts_with(&format!("{name} ")));
    let words: Vec<&str> = line.unwrap().split(' ').collect();
    assert_eq!((words[1], words[6]), ("verdict", "compile"));
    assert_eq!(words[2].parse(), Ok(judged), "{name}");
    assert_eq!(words[7].parse(), Ok(compiled), "{name}");
}

/// "n = 0 and 33 give 9; 01 00 00 00 with room 7 is accepted, with 6 gives 23;
/// NOT at n is accepted, at n + 1 and 0 gives 12; a body "qcase \[1\]: zero,
/// self without 1; one, self without 2" is accepted at n = 1 and gives 12 at
/// n = 2."
#[test]
fn the_cases_are_those_of_document_01() {
    let skip = [1, 0, 0, 0];
    check("n_0", 0, &skip, 9, 9);
    check("n_33", 33, &skip, 9, 9);
    check("room_of_7", 1, &skip, 0, 0);
    check("room_of_6", 1, &skip, 0, 23);
    assert_eq!((case("room_of_7")[2], case("room_of_6")[2]), (7, 6));
    let at = |position| table(Statement::Not(vec![], position), &[]);
    for n in [1, 32] {
        let (last, next) = (Number::SizePlus(0), Number::SizePlus(1));
        check(&format!("not_at_n_of_{n}"), n, &at(last), 0, 0);
        check(&format!("not_at_n_plus_1_of_{n}"), n, &at(next), 12, 12);
        let none = at(Number::Constant(0));
        check(&format!("not_at_0_of_{n}"), n, &none, 12, 12);
    }
    check("self_calls_at_n_1", 1, &closed_through_a_call(), 0, 0);
    check("self_calls_at_n_2", 2, &closed_through_a_call(), 12, 12);
}
