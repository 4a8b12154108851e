//! The C programs of `host/c`, compiled as C11 and as C++ and run, say what the
//! bindings say.

mod counts;
mod programs;

use counts::{assert_reached, count, Counts};
use foq::border::{self, Answer, Band};
use foq::{circuit_read, circuit_run, compile_to_vec, inverse_to_vec, run, verdict, Refusal};
use foq::{LEAST_WORKSPACE, MOST_BAND, MOST_CIRCUIT, MOST_LISTING, PAIRS};
use foq_generator::circuits::{circuit, circuit_of, crowded_circuit, longest_listing, sizes};
use foq_generator::damage::damaged;
use foq_generator::programs::{program, SMALL};
use foq_generator::size_left::{program_by_size_left, reversal, reversal_by_hand};
use foq_generator::tables::{
    every_kind, full, nested_classes, one_in_each_branch, sixteen_in_turn, two_in_sequence,
    without_removal,
};
use foq_generator::tree::{encode, not, table, Number, Statement};
use foq_generator::Random;
use foq_reference::{circuit_list, inverse, page, read_circuit};
use programs::{compiled, example, flags, output, page_example, printed, scratch};
use programs::{C11, CPP, SANITIZED};
use std::collections::{BTreeMap, BTreeSet};
use std::fs;
use std::iter::successors;
use std::path::{Path, PathBuf};

#[test]
fn the_example_of_the_header_runs() {
    let source = example("example.c");
    for (compiler, name) in [(C11, "example-c"), (CPP, "example-cpp")] {
        let program = programs::compile(&source, compiler, name, &flags());
        assert_eq!(printed(&program, &[], &[]), b"7 and 7\n");
    }
}

#[test]
fn the_loop_of_the_header_writes_pages() {
    let source = page_example("page-example.c");
    for (compiler, name) in [(C11, "page-example-c"), (CPP, "page-example-cpp")] {
        let program = programs::compile(&source, compiler, name, &flags());
        for circuit in drawn() {
            match read_circuit(&circuit) {
                Ok(_) => assert_eq!(printed(&program, &[], &circuit), page(&circuit)),
                Err(_) => {
                    let output = output(&program, &[], &circuit);
                    assert_eq!(output.status.code(), Some(1));
                    assert_eq!(output.stdout, b"");
                }
            }
        }
    }
}

/// The circuit of PAIRS.
fn pairs(n: u32) -> Vec<u8> {
    compile_to_vec(PAIRS, n).unwrap()
}

/// Circuits and words of every answer, and some at random.
fn circuits() -> Vec<(Vec<u8>, u64)> {
    let mut random = Random::from_seed(41);
    let nots: Vec<[u8; 2]> = vec![[0, 1]; MOST_CIRCUIT / 2];
    let mut inputs = vec![
        (vec![], 0),
        (vec![], u64::MAX),
        (pairs(3), 8),
        (pairs(3), u64::MAX),
        (pairs(32), (1 << 32) - 1),
        (pairs(32), 1 << 32),
        (circuit(&mut random, 32, 223, 100), 0x1234_5678),
        (circuit(&mut random, 32, 223, MOST_CIRCUIT), 0x8765_4321),
        (circuit_of(32, 224, &nots[..1]), 0),
        (circuit_of(1, 0, &nots[..(MOST_CIRCUIT - 7) / 2]), 1),
        (circuit_of(1, 0, &nots), 1),
    ];
    inputs.extend((0..8).map(|word| (pairs(3), word)));
    for _ in 0..60 {
        let (n, ancillas) = sizes(&mut random);
        let bytes = circuit(&mut random, n, ancillas, 8);
        let word = random.word() >> random.below(64);
        inputs.push((damaged(&mut random, &bytes), word));
        inputs.push((bytes, word));
    }
    inputs
}

/// Circuits to draw: without a gate, with one, about the end of a band and of
/// two; on one wire, on few and on all; with gates that name every wire; of the
/// longest length and one byte longer; cut off, with a false count, with a wire
/// too many, and no circuit at all.
fn drawn() -> Vec<Vec<u8>> {
    let mut random = Random::from_seed(43);
    let nots = |gates| vec![&[0, 1][..]; gates];
    let swap: &[u8] = &[4, 1, 2];
    let on_one_wire = circuit_of(1, 0, &nots(39));
    let cut_off = on_one_wire[..on_one_wire.len() - 1].to_vec();
    let mut false_count = on_one_wire.clone();
    false_count[3] += 1;
    let counts = [0, 1, 18, 19, 20, 38, 39, 57];
    let mut circuits = Vec::from(counts.map(|gates| circuit(&mut random, 3, 2, gates)));
    circuits.extend([
        pairs(3),
        on_one_wire,
        circuit(&mut random, 32, 223, 39),
        crowded_circuit(&mut random, 32, 223, 20),
        circuit_of(32, 223, &nots(0)),
        circuit_of(2, 0, &[nots(32_763), vec![swap]].concat()),
        circuit_of(2, 0, &nots(32_765)),
        cut_off,
        false_count,
        circuit_of(32, 224, &nots(20)),
        vec![],
    ]);
    circuits
}

/// A table damaged and whole, on n qubits, with a word.
fn damaged_and_whole(random: &mut Random, whole: Vec<u8>, n: u32) -> [(Vec<u8>, u32, u64); 2] {
    let word = random.word() % (1 << n);
    [(damaged(random, &whole), n, word), (whole, n, word)]
}

/// Tables with base 2, numbers of qubits and words: accepted, refused with 12,
/// cut off behind the base and with another base, and some at random.
fn tables_with_base_2() -> Vec<(Vec<u8>, u32, u64)> {
    let mut random = Random::from_seed(44);
    let last = Number::LeftPlus(0);
    let behind = |removed| table(Statement::Not(vec![last; removed], last), &[]);
    let cut_off = behind(1)[..6].to_vec();
    let mut base_3 = behind(1);
    base_3[5] = 3;
    let mut tables = vec![
        (reversal(), 32, 0x89AB_CDEF),
        (reversal_by_hand(), 32, 0x89AB_CDEF),
        (behind(0), 3, 5),
        (behind(8), 9, 0),
        (behind(8), 8, 0),
        (cut_off, 3, 0),
        (base_3, 3, 0),
    ];
    for _ in 0..20 {
        let n = 1 + random.below(32) as u32;
        let whole = encode(&program_by_size_left(&mut random, n));
        tables.extend(damaged_and_whole(&mut random, whole, n));
    }
    tables
}

/// Tables, numbers of qubits and words of every answer, and some at random.
fn tables() -> Vec<(Vec<u8>, u32, u64)> {
    let mut random = Random::from_seed(42);
    let pairs = PAIRS.to_vec();
    let mut tables = vec![
        (vec![], 3, 0),
        (vec![], 0, 0),
        (vec![1; 1 << 17], 3, 0),
        (table(full(8), &[]), 32, u64::from(u32::MAX)),
        (table(full(8), &[Statement::Skip]), 3, 0),
        (vec![2, 0, 0, 0], 3, 0),
        (vec![1, 17, 0, 0], 3, 0),
        (vec![1, 0, 0, 12], 3, 0),
        (vec![1, 0, 1, 0], 3, 0),
        (vec![1, 0, 8, 5, 1], 3, 0),
        (vec![1, 0, 0, 0, 0], 3, 0),
        (vec![1, 0, 0, 0], 1, 0),
        (without_removal(), 3, 0),
        (two_in_sequence(), 3, 0),
        (table(not(0), &[]), 3, 8),
        (pairs.clone(), 3, 8),
        (pairs.clone(), 3, 1 << 63),
        (pairs.clone(), 32, 1 << 32),
        (pairs.clone(), 33, 0),
        (pairs.clone(), u32::MAX, u64::MAX),
        ([&pairs[..], &[0; 1 << 16]].concat(), 3, 0),
        (one_in_each_branch(), 20, 0xA_BCDE),
        (every_kind(), 32, 0x89AB_CDEF),
        (sixteen_in_turn(), 16, 1),
        (nested_classes(3), 32, 1),
    ];
    tables.extend((0..8).map(|word| (pairs.clone(), 3, word)));
    for _ in 0..40 {
        let whole = encode(&program(&mut random, &SMALL));
        let n = 1 + random.below(32) as u32;
        tables.extend(damaged_and_whole(&mut random, whole, n));
    }
    tables.extend(tables_with_base_2());
    tables
}

fn refused_line(refusal: Refusal) -> String {
    format!("refused {}\n", refusal.number())
}

/// The listing of a well-formed circuit, as the second interpreter has it.
fn listing(circuit: &[u8]) -> String {
    String::from_utf8(circuit_list(circuit, MOST_LISTING).unwrap()).unwrap()
}

/// What the tool is to print of a circuit.
fn circuit_lines(circuit: &[u8], word: u64) -> String {
    let read = match circuit_read(circuit) {
        Ok(header) => format!(
            "{} qubits, {} ancillas, {} gates\n{}",
            header.qubits,
            header.ancillas,
            header.gates,
            listing(circuit)
        ),
        Err(refusal) => refused_line(refusal),
    };
    let ran = match circuit_run(circuit, word) {
        Ok(block) => {
            let wires = 1..=block.data + block.ancillas;
            let bits = wires.map(|wire| if block.holds(wire) { '1' } else { '0' });
            format!("wires {}\n", bits.collect::<String>())
        }
        Err(refusal) => refused_line(refusal),
    };
    read + &ran
}

/// What the tool is to print of a circuit's page: what the second interpreter
/// draws.
fn page_lines(circuit: &[u8]) -> String {
    match read_circuit(circuit) {
        Ok(_) => String::from_utf8(page(circuit)).unwrap(),
        Err(_) => refused_line(Refusal::NOT_WELL_FORMED),
    }
}

/// What the tool is to print of a table's inverse: what the second interpreter
/// writes.
fn inverse_line(table: &[u8], n: u32) -> String {
    match inverse(table, n, table.len()) {
        Ok(inverse) => {
            let bytes = inverse.iter().map(|byte| format!(" {byte:02x}"));
            format!("inverse{}\n", bytes.collect::<String>())
        }
        Err(number) => format!("refused {number}\n"),
    }
}

/// What the tool is to print of a table.
fn table_lines(table: &[u8], n: u32, word: u64) -> String {
    let workspace = &mut vec![1; LEAST_WORKSPACE];
    let judged = match verdict(table, n, workspace) {
        Ok(()) => "accepted\n".to_string(),
        Err(refusal) => refused_line(refusal),
    };
    let ran = match run(table, n, word, workspace) {
        Ok(end) => format!("end word {end}\n"),
        Err(refusal) => refused_line(refusal),
    };
    let compiled = match compile_to_vec(table, n) {
        Ok(circuit) => {
            let length = circuit.len();
            format!("circuit of {length} bytes\n") + &circuit_lines(&circuit, word)
        }
        Err(refusal) => refused_line(refusal),
    };
    judged + &ran + &inverse_line(table, n) + &compiled
}

/// The tool, as C and as C++.
struct Tools([PathBuf; 2]);

impl Tools {
    fn compiled(name: &str) -> Tools {
        Tools([(C11, "c"), (CPP, "cpp")].map(|(compiler, language)| {
            compiled("foq_tool.c", compiler, &format!("{name}-{language}"))
        }))
    }

    /// Asserts that both print this for their input.
    fn assert_print(&self, arguments: &[&str], input: &[u8], expected: &str) {
        for tool in &self.0 {
            let printed = printed(tool, arguments, input);
            assert_eq!(String::from_utf8_lossy(&printed), expected);
        }
    }

    /// Asserts that both refuse to run.
    fn assert_fail(&self, arguments: &[&str]) {
        for tool in &self.0 {
            assert!(!output(tool, arguments, PAIRS).status.success());
        }
    }
}

/// How many answers of each number there are.
type Numbers = BTreeMap<u32, usize>;

/// Counts the refusals among these lines.
fn count_refusals(lines: &str, numbers: &mut Numbers) {
    let refused = lines
        .lines()
        .filter_map(|line| line.strip_prefix("refused "));
    for number in refused {
        *numbers.entry(number.parse().unwrap()).or_default() += 1;
    }
}

#[test]
fn the_tool_shows_tables_as_the_bindings_do() {
    let tools = Tools::compiled("table-tool");
    let file = scratch("tool.circuit");
    let (mut circuits, mut refusals) = (0, Numbers::new());
    for (table, n, word) in tables() {
        let expected = table_lines(&table, n, word);
        count_refusals(&expected, &mut refusals);
        let (qubits, word) = (n.to_string(), word.to_string());
        let arguments = ["table", "/dev/stdin", &qubits, &word];
        tools.assert_print(&arguments, &table, &expected);
        if let Ok(circuit) = compile_to_vec(&table, n) {
            let with_file = [&arguments[..], &[file.to_str().unwrap()]].concat();
            tools.assert_print(&with_file, &table, &expected);
            assert_eq!(fs::read(&file).unwrap(), circuit);
            circuits += 1;
        }
    }
    println!("{circuits} circuits, refusals {refusals:?}");
    assert!(circuits >= 40);
    let all = [1, 2, 3, 4, 5, 6, 7, 8, 9, 10, 11, 12, 13, 22, 23];
    assert!(refusals.keys().eq(&all));
    let worked = "accepted\nend word 4\n\
        inverse 01 01 08 05 01 00 03 06 06 01 00 00 00 01 00 02 04 00 01 00 02 04 00 02 00 \
        09 05 02 00 01 00 00 01 00 01 00 00 02 04 00 02 00 00 00 09 05 02 00 01 00 00 01 00 \
        01 02 01 00 01 00\n\
        circuit of 49 bytes\n3 qubits, 3 ancillas, 9 gates\n\
        3 3 15\n1 X 4\n2 X 5 -1 -2 +4\n3 X 6 +1 +2 +4\n4 X 5 +6\n5 X 3 +5\n6 X 5 +6\n\
        7 X 6 +1 +2 +4\n8 X 5 -1 -2 +4\n9 X 4\nwires 001000\n";
    tools.assert_print(&["table", "/dev/stdin", "3", "0x0"], PAIRS, worked);
}

/// A kept inverse is shown as a table, which takes the run back.
#[test]
fn the_tool_keeps_inverses_that_take_runs_back() {
    let tools = Tools::compiled("inverse-tool");
    let file = scratch("tool.inverse");
    let name = file.to_str().unwrap();
    let (mut taken_back, mut refusals) = (0, Numbers::new());
    for (table, n, word) in tables() {
        let line = inverse_line(&table, n);
        count_refusals(&line, &mut refusals);
        let qubits = n.to_string();
        let arguments = ["inverse", "/dev/stdin", &qubits];
        tools.assert_print(&arguments, &table, &line);
        let Ok(end) = run(&table, n, word, &mut vec![1; LEAST_WORKSPACE]) else {
            continue;
        };
        tools.assert_print(&[&arguments[..], &[name]].concat(), &table, &line);
        let inverse = fs::read(&file).unwrap();
        assert_eq!(inverse_to_vec(&table, n).as_ref(), Ok(&inverse));
        let shown = table_lines(&inverse, n, end);
        assert!(shown.starts_with(&format!("accepted\nend word {word}\n")));
        tools.assert_print(&["table", name, &qubits, &end.to_string()], &[], &shown);
        taken_back += usize::from(inverse != table);
    }
    println!("{taken_back} runs taken back by another table, refusals {refusals:?}");
    assert!(taken_back >= 40);
    assert!(refusals.keys().eq(&[1, 2, 3, 4, 5, 6, 7, 8, 9, 10, 11, 12]));
}

#[test]
fn the_tool_shows_circuits_as_the_bindings_do() {
    let tools = Tools::compiled("circuit-tool");
    let (mut blocks, mut refusals) = (0, Numbers::new());
    for (circuit, word) in circuits() {
        let expected = circuit_lines(&circuit, word);
        blocks += usize::from(expected.contains("wires"));
        count_refusals(&expected, &mut refusals);
        let arguments = ["circuit", "/dev/stdin", &word.to_string()];
        tools.assert_print(&arguments, &circuit, &expected);
    }
    println!("{blocks} blocks, refusals {refusals:?}");
    assert!(blocks >= 30 && refusals[&13] >= 20 && refusals[&14] >= 30);
}

#[test]
fn the_tool_draws_circuits_as_the_second_interpreter_does() {
    let tools = Tools::compiled("page-tool");
    let (mut longer, mut refusals) = (0, Numbers::new());
    let kept = circuits().into_iter().map(|(circuit, _)| circuit);
    for circuit in kept.chain(drawn()) {
        let expected = page_lines(&circuit);
        // The wire numbers start again with each band.
        longer += usize::from(expected.matches("   1").count() > 1);
        count_refusals(&expected, &mut refusals);
        tools.assert_print(&["page", "/dev/stdin"], &circuit, &expected);
    }
    println!("{longer} pages of several bands, refusals {refusals:?}");
    assert!(longer >= 10 && refusals[&14] >= 30);
    // The longest page: as many gates as there can be, on every wire.
    let longest = circuit_of(32, 223, &vec![[0, 1]; (MOST_CIRCUIT - 7) / 2]);
    let expected = page(&longest);
    assert_eq!(expected.len(), 35_618_655);
    for tool in &tools.0 {
        assert!(printed(tool, &["page", "/dev/stdin"], &longest) == expected);
    }
}

#[test]
fn the_tool_refuses_wrong_arguments() {
    let tools = Tools::compiled("wrong-tool");
    for arguments in [
        &["circuit", "/dev/stdin"][..],
        &["circuit", "/dev/stdin", "-1"],
        &["circuit", "/dev/stdin", "18446744073709551616"],
        &["circuit", "/dev/stdin", "0", "0"],
        &["circuit", "/nowhere", "0"],
        &["inverse", "/dev/stdin"],
        &["inverse", "/dev/stdin", "x"],
        &["inverse", "/dev/stdin", "4294967296"],
        &["inverse", "/dev/stdin", "3", "/nowhere/table"],
        &["inverse", "/dev/stdin", "3", "/dev/null", "0"],
        &["inverse", "/nowhere", "3"],
        &["page"],
        &["page", "/dev/stdin", "0"],
        &["page", "/nowhere"],
        &["table", "/dev/stdin", "3", "x"],
        &["table", "/dev/stdin", "4294967296", "0"],
        &["table", "/dev/stdin", "3", "0", "/nowhere/circuit"],
        &["tables", "/dev/stdin", "3", "0"],
        &[],
    ] {
        tools.assert_fail(arguments);
    }
}

/// What the border program is to call the functions with.
struct Case {
    bytes: Vec<u8>,
    n: u32,
    word: u64,
    room: usize,
    workspace: usize,
    inverse: usize,
    place: u64,
    text: usize,
    listing: usize,
}

impl Case {
    /// A table with a room for its inverse; all others are lent nothing.
    fn of_inverse(bytes: Vec<u8>, n: u32, inverse: usize) -> Case {
        Case {
            n,
            inverse,
            ..Case::of_circuit(bytes, 0, 0, 0)
        }
    }

    /// A circuit: the functions of tables are lent nothing, and for a listing
    /// there is no text.
    fn of_circuit(bytes: Vec<u8>, word: u64, place: u64, text: usize) -> Case {
        Case {
            bytes,
            n: 3,
            word,
            room: 0,
            workspace: 0,
            inverse: 0,
            place,
            text,
            listing: 0,
        }
    }

    /// A circuit with a text for its listing; for a band there is none.
    fn of_listing(bytes: Vec<u8>, listing: usize) -> Case {
        Case {
            listing,
            ..Case::of_circuit(bytes, 0, 0, 0)
        }
    }

    /// As the program reads it.
    fn encoded(&self) -> Vec<u8> {
        let Case {
            bytes,
            n,
            word,
            room,
            workspace,
            inverse,
            place,
            text,
            listing,
        } = self;
        let length = bytes.len();
        let of_table = format!("{n} {word} {room} {workspace} {inverse}");
        let line = format!("{of_table} {place} {text} {listing} {length}\n");
        [line.as_bytes(), bytes].concat()
    }

    /// The answer of compile, and what stands in the room.
    fn compiled(&self) -> (Answer, Vec<u8>) {
        let mut room = vec![2; self.room];
        let workspace = &mut vec![1; self.workspace];
        let answer = border::compile(&self.bytes, self.n, &mut room, workspace);
        room.truncate(answer.value as usize);
        (answer, room)
    }

    /// The answer of a call for the inverse, and what stands in its room.
    fn inverted(&self) -> (Answer, Vec<u8>) {
        let mut room = vec![2; self.inverse];
        let answer = border::inverse(&self.bytes, self.n, &mut room);
        room.truncate(answer.value as usize);
        (answer, room)
    }

    /// The answer of a call for a band, and what stands in the text: the band
    /// as a long text takes it, where this text is long enough.
    fn band(&self) -> (Band, Vec<u8>) {
        let mut text = vec![2; MOST_BAND];
        let band = border::page_band(&self.bytes, self.place, &mut text);
        let length = band.length as usize;
        text.truncate(if length <= self.text { length } else { 0 });
        (band, text)
    }

    /// The answer of a call for the listing, and what stands in the text.
    fn listed(&self) -> (Answer, Vec<u8>) {
        let mut text = vec![2; self.listing];
        let answer = border::circuit_list(&self.bytes, &mut text);
        text.truncate(answer.value as usize);
        (answer, text)
    }

    /// What the functions of tables say: the beginning of a line, and the bytes
    /// of the circuit and of the inverse.
    fn of_table(&self) -> (String, [Vec<u8>; 2]) {
        let workspace = &mut vec![1; self.workspace];
        let judged = border::verdict(&self.bytes, self.n, workspace);
        let ran = border::run(&self.bytes, self.n, self.word, workspace);
        let (compiled, circuit) = self.compiled();
        let (inverted, inverse) = self.inverted();
        let answers = [ran, compiled, inverted];
        let answers = answers.map(|Answer { number, value }| format!(" | {number} {value}"));
        (judged.to_string() + &answers.concat(), [circuit, inverse])
    }

    /// What the program is to print.
    fn expected(&self) -> Vec<u8> {
        let (of_table, [circuit, inverse]) = self.of_table();
        let header = border::circuit_read(&self.bytes);
        let block = border::circuit_run(&self.bytes, self.word);
        let bits: String = block
            .bits
            .iter()
            .map(|byte| format!("{byte:02x}"))
            .collect();
        let (band, text) = self.band();
        let (listed, listing) = self.listed();
        let line = format!(
            "{of_table} | {} {} {} {} | {} {} {} {bits} | {} {} {} | {} {}\n",
            header.number,
            header.qubits,
            header.ancillas,
            header.gates,
            block.number,
            block.data,
            block.ancillas,
            band.number,
            band.length,
            band.next,
            listed.number,
            listed.value,
        );
        [line.as_bytes(), &circuit, &inverse, &text, &listing].concat()
    }
}

/// The longest slice that the border program takes, a text for a listing apart.
const LONGEST_SLICE: usize = 1 << 17;

/// Workspaces and rooms to try a table with: each workspace beside a long
/// room, and each room, about the length of the circuit too, beside a
/// workspace that is just long enough.
fn lengths(circuit: usize) -> Vec<(usize, usize)> {
    let enough = [0, 1, LEAST_WORKSPACE - 1, LEAST_WORKSPACE, 40_000];
    let spaces = enough.map(|workspace| (MOST_CIRCUIT, workspace));
    let mut rooms = vec![0, 1, 6, 7, 8, MOST_CIRCUIT - 1, MOST_CIRCUIT + 9];
    rooms.extend([circuit.saturating_sub(1), circuit, circuit + 1]);
    let rooms = rooms.into_iter().map(|room| (room, LEAST_WORKSPACE));
    spaces.into_iter().chain(rooms).collect()
}

/// Rooms to try an inverse with: none, one byte, about the table's length, and a
/// long one.
fn inverse_rooms(table: usize) -> BTreeSet<usize> {
    let about = [table.saturating_sub(1), table, table + 1];
    let mut rooms = BTreeSet::from([0, 1, LONGEST_SLICE]);
    rooms.extend(about.map(|room| room.min(LONGEST_SLICE)));
    rooms
}

/// Tables with many rooms for their inverses.
fn inverse_cases() -> Vec<Case> {
    let cases = tables().into_iter().flat_map(|(table, n, _)| {
        let rooms = inverse_rooms(table.len()).into_iter();
        rooms.map(move |room| Case::of_inverse(table.clone(), n, room))
    });
    cases.collect()
}

/// The places of a page's bands.
fn band_places(circuit: &[u8]) -> Vec<u64> {
    let next = |place: &u64| {
        let band = border::page_band(circuit, *place, &mut []);
        Some(band.next).filter(|next| *next > 0)
    };
    successors(Some(0), next).collect()
}

/// Places to ask a circuit at: those of its first and last bands and beside
/// them, those in the header, those about the circuit's end and far behind it;
/// in a short circuit every place.
fn places(circuit: &[u8]) -> BTreeSet<u64> {
    let end = circuit.len() as u64;
    let mut places: BTreeSet<u64> = (0..=if end <= 120 { end } else { 8 }).collect();
    let bands = band_places(circuit);
    for place in bands.iter().take(3).chain(bands.iter().rev().take(2)) {
        places.extend([place.saturating_sub(1), *place, place + 1, place | 1 << 32]);
    }
    places.extend([end.saturating_sub(1), end, end + 1, 1 << 63, u64::MAX]);
    places
}

/// Texts to try a band with: none, one byte, about the band's length, and two
/// that are always long enough; fewer where the band is refused.
fn texts(band: Band) -> BTreeSet<usize> {
    let mut texts = BTreeSet::from([0, MOST_BAND]);
    if band.number == 0 {
        let length = band.length as usize;
        texts.extend([1, length - 1, length, length + 1, MOST_BAND + 9]);
    }
    texts
}

/// Circuits with many places and texts.
fn band_cases() -> Vec<Case> {
    let mut cases = Vec::new();
    for circuit in drawn() {
        for place in places(&circuit) {
            let band = border::page_band(&circuit, place, &mut []);
            for text in texts(band) {
                cases.push(Case::of_circuit(circuit.clone(), 0, place, text));
            }
        }
    }
    cases
}

/// Texts to try a listing with: none, one byte, about the listing's length,
/// about six times the circuit's, and one that is always long enough.
fn listing_texts(circuit: &[u8]) -> BTreeSet<usize> {
    let enough = MOST_LISTING.min(6 * circuit.len());
    let mut texts = BTreeSet::from([0, 1, enough, MOST_LISTING]);
    if let Ok(listing) = circuit_list(circuit, MOST_LISTING) {
        let length = listing.len();
        texts.extend([length - 1, length, length + 1, enough - 1]);
    }
    texts
}

/// Circuits with many texts for their listings.
fn listing_cases() -> Vec<Case> {
    let kept = circuits().into_iter().map(|(circuit, _)| circuit);
    let circuits = kept.chain(drawn()).chain([longest_listing()]);
    let cases = circuits.flat_map(|circuit| {
        let texts = listing_texts(&circuit).into_iter();
        texts.map(move |text| Case::of_listing(circuit.clone(), text))
    });
    cases.collect()
}

/// Tables with many rooms and workspaces, and circuits.
fn cases() -> Vec<Case> {
    let mut cases = Vec::new();
    for (bytes, n, word) in tables() {
        let circuit = compile_to_vec(&bytes, n).map_or(0, |circuit| circuit.len());
        for (room, workspace) in lengths(circuit) {
            let bytes = bytes.clone();
            cases.push(Case {
                bytes,
                n,
                word,
                room,
                workspace,
                inverse: 100,
                place: 0,
                text: MOST_BAND,
                listing: 100,
            });
        }
    }
    let circuits = circuits().into_iter();
    cases.extend(circuits.map(|(bytes, word)| Case::of_circuit(bytes, word, 0, MOST_BAND)));
    cases.extend(inverse_cases());
    cases.extend(band_cases());
    cases.extend(listing_cases());
    cases
}

/// Asserts that the border program, started like this, says what the bindings
/// say of every case.
fn assert_border(program: &Path, arguments: &[&str], cases: &[Case]) {
    let input: Vec<u8> = cases.iter().flat_map(Case::encoded).collect();
    let printed = printed(program, arguments, &input);
    let mut rest = &printed[..];
    for case in cases {
        let expected = case.expected();
        let given = &rest[..expected.len().min(rest.len())];
        assert_eq!(
            String::from_utf8_lossy(given),
            String::from_utf8_lossy(&expected)
        );
        rest = &rest[expected.len()..];
    }
    assert!(rest.is_empty());
}

/// Asserts that calls for a band of each sort are among the cases.
fn assert_bands_reached(cases: &[Case]) {
    let mut counts = Counts::new();
    for case in cases {
        let (band, _) = case.band();
        let (drawn, length) = (band.number == 0, band.length as usize);
        count(&mut counts, "14 at place 0", !drawn && case.place == 0);
        count(&mut counts, "14 at a place", !drawn && case.place > 0);
        count(&mut counts, "first band", drawn && case.place == 0);
        count(&mut counts, "band at a place", drawn && case.place > 0);
        let refused = circuit_read(&case.bytes).is_err();
        count(&mut counts, "band of a refused circuit", drawn && refused);
        count(&mut counts, "last band", drawn && band.next == 0);
        count(&mut counts, "longest band", length == MOST_BAND);
        count(&mut counts, "text exact", drawn && case.text == length);
        count(&mut counts, "one less", drawn && case.text + 1 == length);
        count(&mut counts, "one more", drawn && case.text == length + 1);
        count(&mut counts, "null", drawn && case.text == 0);
    }
    let least = [
        ("14 at place 0", 1_000),
        ("14 at a place", 1_000),
        ("first band", 100),
        ("band at a place", 1_000),
        ("band of a refused circuit", 300),
        ("last band", 500),
        ("longest band", 20),
        ("text exact", 200),
        ("one less", 200),
        ("one more", 200),
        ("null", 200),
    ];
    assert_reached(&counts, &least);
}

/// Asserts that calls for a listing of each sort are among the cases.
fn assert_listings_reached(cases: &[Case]) {
    let mut counts = Counts::new();
    for case in cases {
        let text = case.listing;
        let (answer, listing) = case.listed();
        let listed = answer.number == 0;
        let one_walk = text >= 6 * case.bytes.len();
        count(&mut counts, "14", answer.number == 14);
        count(&mut counts, "23", answer.number == 23);
        count(&mut counts, "null", answer.number == 23 && text == 0);
        count(&mut counts, "one walk", listed && one_walk);
        count(&mut counts, "measured", listed && !one_walk);
        count(&mut counts, "exact", listed && listing.len() == text);
        let whole = circuit_list(&case.bytes, MOST_LISTING);
        let one_less = whole.is_ok_and(|whole| whole.len() == text + 1);
        count(&mut counts, "one less", one_less);
    }
    let least = [
        ("14", 3_000),
        ("23", 2_000),
        ("null", 2_000),
        ("one walk", 150),
        ("measured", 250),
        ("exact", 80),
        ("one less", 80),
    ];
    assert_reached(&counts, &least);
}

/// Asserts that calls for an inverse of each sort are among the cases.
fn assert_inverses_reached(cases: &[Case]) {
    let (mut counts, mut numbers) = (Counts::new(), Numbers::new());
    for case in cases {
        let (room, length) = (case.inverse, case.bytes.len());
        let (answer, inverse) = case.inverted();
        let (inverted, short) = (answer.number == 0, answer.number == 24);
        let fault = answer.number == 12;
        *numbers.entry(answer.number).or_default() += 1;
        count(&mut counts, "turned", inverted && inverse != case.bytes);
        count(&mut counts, "exact", inverted && room == length);
        count(&mut counts, "one more", inverted && room == length + 1);
        count(&mut counts, "longest", inverted && room == LONGEST_SLICE);
        count(&mut counts, "one less", short && room + 1 == length);
        count(&mut counts, "null", short && room == 0);
        count(&mut counts, "12 in a short room", fault && room < length);
    }
    let least = [
        ("turned", 200),
        ("exact", 70),
        ("one more", 70),
        ("longest", 70),
        ("one less", 70),
        ("null", 70),
        ("12 in a short room", 30),
    ];
    assert_reached(&counts, &least);
    let all = [0, 1, 2, 3, 4, 5, 6, 7, 8, 9, 10, 11, 12, 24];
    assert!(numbers.keys().eq(&all), "{numbers:?}");
}

#[test]
fn every_function_answers_at_the_border_as_the_bindings_say() {
    let cases = cases();
    println!("{} cases", cases.len());
    assert_inverses_reached(&cases);
    assert_bands_reached(&cases);
    assert_listings_reached(&cases);
    for (compiler, name) in [
        (C11, "border-c"),
        (CPP, "border-cpp"),
        (SANITIZED, "border-sanitized"),
    ] {
        assert_border(&compiled("border.c", compiler, name), &[], &cases);
    }
    let mut numbers = Numbers::new();
    let (mut exact, mut one_less, mut null) = (0, 0, 0);
    for case in &cases {
        let (answer, circuit) = case.compiled();
        *numbers.entry(answer.number).or_default() += 1;
        exact += usize::from(answer.number == 0 && circuit.len() == case.room);
        let whole = compile_to_vec(&case.bytes, case.n);
        let lacks_one = whole.is_ok_and(|whole| whole.len() == case.room + 1);
        one_less += usize::from(answer.number == 23 && lacks_one);
        null += usize::from(answer.number == 23 && case.room == 0);
    }
    println!("{numbers:?}; {exact} rooms exact, {one_less} one less, {null} null");
    assert!(exact >= 40 && one_less >= 40 && null >= 40);
    let all = [0, 1, 2, 3, 4, 5, 6, 7, 8, 9, 10, 11, 12, 21, 22, 23];
    assert!(numbers.keys().eq(&all));
}

#[test]
#[ignore = "needs valgrind, and takes a minute"]
fn nothing_unset_is_used_at_the_border() {
    let program = compiled("border.c", C11, "border-valgrind");
    let arguments = ["--quiet", "--error-exitcode=1", program.to_str().unwrap()];
    assert_border(Path::new("valgrind"), &arguments, &cases());
}
