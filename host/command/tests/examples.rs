//! The examples: each text assembles to its table, each table lists and is drawn
//! as stored, and each program computes what its text says.

use foq::LEAST_WORKSPACE;
use foq_command::bytes::encode;
use foq_command::text::parse;
use foq_reference::{gates_on, read_circuit};
use std::collections::BTreeSet;
use std::fs;
use std::path::PathBuf;

/// The path of an example.
fn example(file: &str) -> PathBuf {
    let examples = PathBuf::from(env!("CARGO_MANIFEST_DIR")).join("../../examples");
    examples.join(file)
}

/// The table of an example.
fn table(name: &str) -> Vec<u8> {
    fs::read(example(&format!("{name}.foq"))).unwrap()
}

/// The names of all examples.
fn names() -> BTreeSet<String> {
    let files = fs::read_dir(example("")).unwrap();
    let names = files.map(|file| {
        let name = file.unwrap().file_name().into_string().unwrap();
        name.split('.').next().unwrap().to_string()
    });
    names.collect()
}

/// The listing of a table on n qubits.
fn listed(table: &[u8], n: u32) -> String {
    let circuit = foq::compile_to_vec(table, n).unwrap();
    foq::circuit_list_to_string(&circuit).unwrap()
}

/// The page of a circuit.
fn drawn(circuit: &[u8]) -> Vec<u8> {
    let mut page = Vec::new();
    foq::write_page(circuit, &mut page).unwrap().unwrap();
    page
}

/// Asserts that this is the page of a table on n qubits, that the second
/// interpreter draws it too, and that the gates can be read off it.
fn assert_page(table: &[u8], n: u32, page: &[u8]) {
    let circuit = foq::compile_to_vec(table, n).unwrap();
    assert_eq!(drawn(&circuit), page);
    assert_eq!(foq_reference::page(&circuit), page);
    let gates = read_circuit(&circuit).unwrap().gates;
    assert_eq!(gates_on(page), Some(gates));
}

#[test]
fn text_table_listing_and_page_say_the_same() {
    let names = names();
    let known = [
        "adder",
        "chained_substring",
        "pairs",
        "palindrome",
        "reversal",
        "subtractor",
        "two_ones",
    ];
    assert_eq!(names, known.map(String::from).into());
    for name in names {
        let text = fs::read_to_string(example(&format!("{name}.foq.txt"))).unwrap();
        assert!(text.starts_with("/* "), "{name} starts without a comment");
        assert_eq!(encode(&parse(&text).unwrap()), table(&name), "{name}");
        let stored = fs::read_to_string(example(&format!("{name}.listing"))).unwrap();
        let n: u8 = stored.split(' ').next().unwrap().parse().unwrap();
        assert_eq!(listed(&table(&name), n.into()), stored, "{name}");
        let input = [&[n], &table(&name)[..]].concat();
        assert_eq!(foq_reference::listing(&input), stored.as_bytes(), "{name}");
        let page = fs::read(example(&format!("{name}.page"))).unwrap();
        assert_page(&table(&name), n.into(), &page);
    }
}

/// As one block, each line indented.
#[test]
fn the_readme_shows_the_listing_of_pairs() {
    let readme = fs::read_to_string(example("../README.md")).unwrap();
    let stored = fs::read_to_string(example("pairs.listing")).unwrap();
    let shown: String = stored.lines().map(|line| format!("    {line}\n")).collect();
    assert!(readme.contains(&format!("\n\n{shown}\n")), "{shown}");
}

/// The end word of an example's run on n qubits.
fn end(table: &[u8], n: u32, word: u64) -> u64 {
    foq::run(table, n, word, &mut [0; LEAST_WORKSPACE]).unwrap()
}

/// Asserts of a program, on 1 to 10 qubits, that it flips the last qubit where
/// the qubits before it, first to last, are as described, and nothing else.
/// There are words of both sorts.
fn flips_last_where(name: &str, described: fn(&[bool]) -> bool) {
    let table = table(name);
    let mut flipped = 0;
    let mut kept = 0;
    for n in 1..=10 {
        for word in 0..1 << n {
            let before: Vec<bool> = (0..n - 1).map(|bit| word >> bit & 1 == 1).collect();
            let flips = described(&before);
            let expected = word ^ u64::from(flips) << (n - 1);
            assert_eq!(end(&table, n, word), expected, "{name}, n {n}, {word}");
            flipped += u32::from(flips);
            kept += u32::from(!flips);
        }
    }
    assert!(flipped > 0 && kept > 0, "{name}: {flipped} and {kept}");
}

#[test]
fn pairs_flips_behind_a_row_of_pairs() {
    let all_pairs = |bits: &[bool]| {
        bits.chunks(2)
            .all(|pair| pair.len() == 2 && pair[0] == pair[1])
    };
    flips_last_where("pairs", all_pairs);
}

#[test]
fn palindrome_flips_behind_a_palindrome() {
    flips_last_where("palindrome", |bits| bits.iter().eq(bits.iter().rev()));
}

#[test]
fn two_ones_flips_behind_two_ones() {
    flips_last_where("two_ones", |bits| {
        bits.iter().filter(|bit| **bit).count() == 2
    });
}

#[test]
fn chained_substring_flips_behind_001_and_later_11() {
    flips_last_where("chained_substring", |bits| {
        let bits: String = bits
            .iter()
            .map(|bit| if *bit { '1' } else { '0' })
            .collect();
        bits.split_once("001")
            .is_some_and(|(_, behind)| behind.contains("11"))
    });
}

/// An addition of two numbers and a carry, as words of n qubits.
struct Addition {
    n: u32,
    /// The numbers as pairs of bits, zeros, and the carry that comes in.
    unadded: u64,
    /// The same pairs, and behind them the sum.
    added: u64,
    /// How people write it.
    shown: String,
}

/// The addition of k pairs of bits, the lowest first, and a carry.
fn addition(k: u32, pairs: u64, carry: u64) -> Addition {
    let n = 3 * k + 1;
    let bit = |place: u32| pairs >> place & 1;
    let a: u64 = (0..k).map(|place| bit(2 * place) << place).sum();
    let b: u64 = (0..k).map(|place| bit(2 * place + 1) << place).sum();
    let sum = a + b + carry;
    // The lowest bit of the sum is the last qubit.
    let last = (0..=k).map(|place| (sum >> place & 1) << (n - 1 - place));
    Addition {
        n,
        unadded: pairs + (carry << (n - 1)),
        added: pairs + last.sum::<u64>(),
        shown: format!("{a} + {b} + {carry}"),
    }
}

/// Every addition of numbers of at most three bits.
fn additions() -> Vec<Addition> {
    let of_length = |k: u32| {
        let pairs = 0..1u64 << (2 * k);
        pairs.flat_map(move |pairs| [0, 1].map(|carry| addition(k, pairs, carry)))
    };
    (0..=3).flat_map(of_length).collect()
}

#[test]
fn adder_adds() {
    let table = table("adder");
    for case in additions() {
        let end = end(&table, case.n, case.unadded);
        assert_eq!(end, case.added, "{}", case.shown);
    }
}

#[test]
fn subtractor_subtracts() {
    let table = table("subtractor");
    for case in additions() {
        let end = end(&table, case.n, case.added);
        assert_eq!(end, case.unadded, "{}", case.shown);
    }
}

#[test]
fn subtractor_is_the_inverse_of_the_adder() {
    let (adder, subtractor) = (table("adder"), table("subtractor"));
    let room = adder.len();
    for n in 1..=32 {
        let inverse = foq_reference::inverse(&adder, n, room);
        assert_eq!(inverse.as_ref(), Ok(&subtractor), "n {n}");
        assert_eq!(foq::inverse_to_vec(&adder, n).as_ref(), Ok(&subtractor));
        assert_eq!(foq::inverse_to_vec(&subtractor, n).as_ref(), Ok(&adder));
    }
}

#[test]
fn adder_and_subtractor_undo_each_other() {
    let (adder, subtractor) = (table("adder"), table("subtractor"));
    for n in 1..=10 {
        for word in 0..1 << n {
            let [added, subtracted] = [&adder, &subtractor].map(|table| end(table, n, word));
            assert_eq!(end(&subtractor, n, added), word, "n {n}, {word}");
            assert_eq!(end(&adder, n, subtracted), word, "n {n}, {word}");
        }
    }
}

#[test]
fn reversal_turns_the_list_round() {
    let table = table("reversal");
    for n in 1..=10 {
        for word in 0..1 << n {
            let turned = (0..n).map(|bit| (word >> bit & 1) << (n - 1 - bit));
            assert_eq!(end(&table, n, word), turned.sum(), "n {n}, {word}");
        }
    }
}

#[test]
fn reversal_compiles_as_with_the_sizes_left_computed_by_hand() {
    let text = fs::read_to_string(example("reversal.foq.txt")).unwrap();
    let by_hand = text.replace("[|s|]", "[|q| - 1]");
    let by_hand = by_hand.replace("[|q - [1]|]", "[|q| - 1]");
    let by_hand = encode(&parse(&by_hand).unwrap());
    let table = table("reversal");
    // Four numbers differ, in their bases and in the two bytes of their constants.
    let differ = table
        .iter()
        .zip(&by_hand)
        .filter(|(one, other)| one != other);
    assert_eq!((table.len(), differ.count()), (by_hand.len(), 4 * 3));
    for n in 1..=32 {
        let circuit = foq::compile_to_vec(&table, n);
        assert_eq!(circuit, foq::compile_to_vec(&by_hand, n), "n {n}");
        assert!(circuit.is_ok(), "n {n}");
    }
}
