//! The listing of a circuit beside the second interpreter's, on circuits that
//! are well formed, damaged or at a limit, and in texts of every length. Each
//! test counts the inputs of the classes that it is meant to reach, so that it
//! cannot run empty.

mod circuit_inputs;
mod counts;
mod lent;
mod programs;
mod room;
mod words;

use circuit_inputs::{
    any_bytes, any_circuit, cut_and_longer, long_circuit, pairs, short_circuits, wires,
    with_false_counts,
};
use counts::{assert_reached, count, Counts};
use foq::{border, circuit_list_to_string, compile_to_vec, Refusal, MOST_LISTING};
use foq_expected::written;
use foq_generator::circuits::{circuit, circuit_of, crowded_circuit, longest_listing, sizes};
use foq_generator::damage::{damaged, single_changes};
use foq_generator::size_left::program_by_size_left;
use foq_generator::tree::encode;
use foq_generator::{Random, PAIRS};
use foq_reference::{circuit_bytes, circuit_list, listing, read_circuit};
use foq_reference::{Action, Circuit, Control, Gate, LONGEST_CIRCUIT};
use programs::{printed, repository};
use room::Room;
use words::on_many_qubits;

/// The bytes of a text that are always enough for the listing of a circuit of
/// this length.
fn enough(circuit: usize) -> usize {
    MOST_LISTING.min(6 * circuit)
}

/// Texts to ask with for a listing of this length, of a circuit of that length:
/// as long as the listing, one byte less and more, just long enough for one walk
/// and one byte less, long enough for every listing, of one byte and of none.
fn text_lengths(listing: usize, circuit: usize) -> [usize; 8] {
    let enough = enough(circuit);
    [
        listing,
        listing.saturating_sub(1),
        listing + 1,
        enough,
        enough.saturating_sub(1),
        MOST_LISTING,
        1,
        0,
    ]
}

/// The gate of a line, and its number.
fn gate(line: &str) -> (usize, Gate) {
    let mut words = line.split(' ');
    let number = words.next().unwrap().parse().unwrap();
    let kind = words.next().unwrap();
    let (controls, wires): (Vec<&str>, Vec<&str>) =
        words.partition(|word| word.starts_with(['+', '-']));
    let wires: Vec<u8> = wires.iter().map(|wire| wire.parse().unwrap()).collect();
    let action = match (kind, &wires[..]) {
        ("X", &[target]) => Action::Not { target },
        ("S", &[lower, upper]) => Action::Swap { lower, upper },
        _ => panic!("{line}"),
    };
    let control = |word: &&str| Control {
        wire: word[1..].parse().unwrap(),
        asks: word.starts_with('+'),
    };
    let controls = controls.iter().map(control).collect();
    (number, Gate { action, controls })
}

/// Asserts that the lines are those of a circuit that was read: "The size on
/// the listing's first line becomes gates plus data wires plus ancillas"; behind
/// it stand the gates, counted from 1.
fn assert_listed(circuit: &Circuit, listing: &[u8]) {
    let text = std::str::from_utf8(listing).unwrap();
    assert!(text.is_ascii() && text.ends_with('\n'));
    let Circuit { n, ancillas, gates } = circuit;
    let (first, lines) = text.split_once('\n').unwrap();
    let size = gates.len() + wires(circuit);
    assert_eq!(first, format!("{n} {ancillas} {size}"));
    let read: Vec<(usize, Gate)> = lines.lines().map(gate).collect();
    let numbered = (1..).zip(gates.iter().cloned());
    assert!(read.into_iter().eq(numbered));
}

/// Texts that are lent, and what was seen of the listings.
struct Listing {
    texts: Room,
    counts: Counts,
    asked: usize,
}

impl Listing {
    fn new() -> Listing {
        Listing {
            texts: Room::up_to(MOST_LISTING + 1),
            counts: Counts::new(),
            asked: 0,
        }
    }

    fn count(&mut self, class: &'static str, shown: bool) {
        count(&mut self.counts, class, shown);
    }

    /// The listing or the refusal of both, with a text of this length out of the
    /// midst of other bytes. Asserts that the answers are the same, and that the
    /// text has the whole listing in front or, after a refusal, nothing of it.
    fn of_both(&mut self, bytes: &[u8], length: usize) -> Result<Vec<u8>, u32> {
        let expected = circuit_list(bytes, length);
        let put = expected.as_deref().unwrap_or(&[]);
        let ask = |text: &mut [u8]| border::circuit_list(bytes, text);
        let given = self.texts.lend(length, put, ask);
        assert_eq!(given, written(&expected), "{length} for {bytes:02x?}");
        let listed = expected.is_ok();
        let whole = length >= 6 * bytes.len();
        self.count("listed in one walk", listed && whole);
        self.count("listed and measured first", listed && !whole);
        self.count("text as long as the listing", listed && put.len() == length);
        self.count("23", expected == Err(23));
        self.count("23 and no byte", expected == Err(23) && length == 0);
        self.count("14", expected == Err(14));
        self.count("14 and a text", expected == Err(14) && length > 0);
        self.count("14 and no byte", expected == Err(14) && length == 0);
        expected
    }

    /// Asks about a circuit with a text that is just long enough for one walk,
    /// and with one of the other lengths, each in turn.
    fn compare(&mut self, bytes: &[u8]) {
        let listing = self.compare_whole(bytes);
        let lengths = text_lengths(listing, bytes.len());
        self.asked += 1;
        let length = lengths[self.asked % lengths.len()];
        let given = self.of_both(bytes, length);
        let lacks_one = given == Err(23) && length + 1 == listing;
        self.count("23 for one byte", lacks_one);
    }

    /// Asks with a text that is always long enough; gives the listing's length.
    fn compare_whole(&mut self, bytes: &[u8]) -> usize {
        match self.of_both(bytes, enough(bytes.len())) {
            Ok(listing) => {
                let circuit = read_circuit(bytes).unwrap();
                assert_listed(&circuit, &listing);
                self.count_circuit(&circuit);
                listing.len()
            }
            Err(number) => {
                assert_eq!(number, 14);
                assert_eq!(read_circuit(bytes), Err(14));
                0
            }
        }
    }

    /// Asks with a text of each of the lengths.
    fn compare_all(&mut self, bytes: &[u8]) {
        let listing = self.compare_whole(bytes);
        for length in text_lengths(listing, bytes.len()) {
            drop(self.of_both(bytes, length));
        }
    }

    fn count_circuit(&mut self, circuit: &Circuit) {
        let gates = &circuit.gates;
        let any = |shows: &dyn Fn(&Gate) -> bool| gates.iter().any(shows);
        let asks = |gate: &Gate, bit| gate.controls.iter().any(|control| control.asks == bit);
        let digits = |number: usize| number.to_string().len();
        let swap = any(&Gate::is_swap);
        let both = any(&|gate| asks(gate, true) && asks(gate, false));
        let every_wire = any(&|gate| gate.wires().len() == 255);
        self.count("well formed", true);
        self.count("no gate", gates.is_empty());
        self.count("more than 99 gates", gates.len() > 99);
        self.count("swap", swap);
        self.count("controls of both kinds", both);
        self.count("255 wires in a gate", every_wire);
        self.count("255 wires", wires(circuit) == 255);
        self.count("32 qubits", circuit.n == 32);
        self.count("one wire", wires(circuit) == 1);
        let longer = digits(gates.len() + wires(circuit)) > digits(gates.len());
        self.count("size with more digits than the gates", longer);
    }

    fn seen(&self, class: &'static str) -> usize {
        self.counts.get(class).copied().unwrap_or(0)
    }
}

#[test]
fn well_formed_circuits_are_listed_alike() {
    let mut random = Random::from_seed(91);
    let mut listing = Listing::new();
    for _ in 0..20_000 {
        listing.compare(&any_circuit(&mut random));
    }
    let least = [
        ("well formed", 20_000),
        ("listed in one walk", 24_000),
        ("listed and measured first", 7_000),
        ("text as long as the listing", 2_400),
        ("23", 7_000),
        ("23 and no byte", 2_400),
        ("23 for one byte", 2_400),
        ("no gate", 1_000),
        ("more than 99 gates", 900),
        ("swap", 15_000),
        ("controls of both kinds", 15_000),
        ("255 wires in a gate", 100),
        ("255 wires", 1_500),
        ("32 qubits", 500),
        ("one wire", 20),
        ("size with more digits than the gates", 5_000),
    ];
    assert_reached(&listing.counts, &least);
}

#[test]
fn circuits_of_pairs_are_listed_alike() {
    let mut listing = Listing::new();
    for n in 1..=32 {
        let circuit = pairs(n);
        listing.compare_all(&circuit);
        let given = circuit_list_to_string(&circuit).unwrap().into_bytes();
        assert_eq!(Ok(given), circuit_list(&circuit, MOST_LISTING));
        let cut = &circuit[..circuit.len() - 1];
        assert_eq!(circuit_list_to_string(cut), Err(Refusal::NOT_WELL_FORMED));
    }
    let first = circuit_list_to_string(&pairs(3)).unwrap();
    assert_eq!(first.lines().next(), Some("3 3 15"));
    assert_reached(&listing.counts, &[("well formed", 32), ("23", 96)]);
}

#[test]
fn every_single_change_is_listed_alike() {
    let mut random = Random::from_seed(92);
    let mut listing = Listing::new();
    for bytes in short_circuits(&mut random) {
        for changed in single_changes(&bytes) {
            listing.compare(&changed);
        }
    }
    let least = [
        ("well formed", 1_500),
        ("23", 500),
        ("14 and a text", 60_000),
        ("14 and no byte", 5_000),
    ];
    assert_reached(&listing.counts, &least);
}

#[test]
fn damaged_circuits_are_listed_alike() {
    let mut random = Random::from_seed(93);
    let mut listing = Listing::new();
    for _ in 0..20_000 {
        let whole = any_circuit(&mut random);
        listing.compare(&damaged(&mut random, &whole));
    }
    let least = [
        ("well formed", 1_000),
        ("23", 300),
        ("14 and a text", 25_000),
        ("14 and no byte", 2_000),
    ];
    assert_reached(&listing.counts, &least);
}

#[test]
fn truncated_and_longer_circuits_are_refused_alike() {
    let mut random = Random::from_seed(94);
    let mut listing = Listing::new();
    for bytes in cut_and_longer(&mut random) {
        listing.compare(&bytes);
    }
    assert_eq!(listing.seen("well formed"), 0);
    assert_reached(&listing.counts, &[("14", 20_000)]);
}

#[test]
fn false_counts_are_refused_alike() {
    let mut random = Random::from_seed(95);
    let mut listing = Listing::new();
    for _ in 0..500 {
        for bytes in with_false_counts(&mut random) {
            listing.compare(&bytes);
        }
    }
    assert_eq!(listing.seen("well formed"), 0);
    assert_reached(&listing.counts, &[("14", 6_000)]);
}

#[test]
fn random_bytes_are_listed_alike() {
    let mut random = Random::from_seed(96);
    let mut listing = Listing::new();
    for _ in 0..20_000 {
        listing.compare(&any_bytes(&mut random));
    }
    listing.compare_all(&[]);
    let least = [("14", 38_000), ("well formed", 100), ("23", 30)];
    assert_reached(&listing.counts, &least);
}

#[test]
fn circuits_about_the_longest_length_are_listed_alike() {
    let mut random = Random::from_seed(97);
    let mut listing = Listing::new();
    for length in LONGEST_CIRCUIT - 2..=LONGEST_CIRCUIT + 2 {
        let bytes = long_circuit(length, 2, 0);
        assert_eq!(bytes.len(), length);
        listing.compare_all(&bytes);
    }
    listing.compare_all(&long_circuit(2 * LONGEST_CIRCUIT, 2, 0));
    for make in [circuit, crowded_circuit] {
        for _ in 0..3 {
            let (n, ancillas) = sizes(&mut random);
            listing.compare_all(&make(&mut random, n, ancillas, LONGEST_CIRCUIT));
        }
    }
    assert_eq!(listing.seen("well formed"), 9);
    // Three circuits are too long; nine are asked for with three texts too short.
    assert_eq!((listing.seen("14"), listing.seen("23")), (27, 27));
}

/// Numbers of gates and of wires at which a number gets one digit more, in a
/// line or in the first one.
#[test]
fn numbers_of_every_length_are_listed_alike() {
    let mut listing = Listing::new();
    let about = |number: usize| number - 2..=number + 1;
    let gates = [10, 100, 1_000, 10_000].into_iter().flat_map(about);
    for gates in gates.chain([0, 1, 32_764]) {
        for (n, ancillas) in [(1, 0), (9, 0), (10, 0), (32, 67), (32, 68), (32, 223)] {
            let last = n + ancillas;
            listing.compare_all(&circuit_of(n, ancillas, &vec![[0, last]; gates]));
        }
    }
    assert_eq!(listing.seen("well formed"), 19 * 6);
    let least = [
        ("size with more digits than the gates", 30),
        ("listed and measured first", 200),
    ];
    assert_reached(&listing.counts, &least);
}

/// A gate that names all 255 wires: a swap of 128 and another one, or a NOT.
fn fullest(upper: Option<u8>, asks: fn(u8) -> bool) -> Gate {
    let lower = 128;
    let action = match upper {
        None => Action::Not { target: lower },
        Some(upper) => Action::Swap { lower, upper },
    };
    let others = (1..=255).filter(|wire| *wire != lower && Some(*wire) != upper);
    let control = |wire| Control {
        wire,
        asks: asks(wire),
    };
    let controls = others.map(control).collect();
    Gate { action, controls }
}

/// Controls on 1, on 0, and by turns.
#[test]
fn gates_with_most_controls_are_listed_alike() {
    let mut listing = Listing::new();
    for upper in [None, Some(200)] {
        for asks in [|_| true, |_| false, |wire: u8| wire & 1 == 0] {
            let gates = vec![fullest(upper, asks)];
            let (n, ancillas) = (32, 223);
            listing.compare_all(&circuit_bytes(&Circuit { n, ancillas, gates }));
        }
    }
    assert_eq!(listing.seen("255 wires in a gate"), 6);
}

/// Circuits at the limit whose listings are shorter: of NOTs of wire 1, of
/// swaps, of gates with one control, and of gates that name every wire.
#[test]
fn the_longest_listing_known_is_given_alike() {
    const LONGEST: usize = 382_079;
    let bytes = longest_listing();
    assert_eq!(bytes.len(), LONGEST_CIRCUIT);
    let mut listing = Listing::new();
    listing.compare_all(&bytes);
    assert_eq!(circuit_list(&bytes, MOST_LISTING).unwrap().len(), LONGEST);
    const { assert!(LONGEST < MOST_LISTING) }
    let mut random = Random::from_seed(98);
    for shorter in [
        long_circuit(LONGEST_CIRCUIT, 32, 223),
        circuit_of(32, 223, &vec![[4, 254, 255]; 21_843]),
        circuit_of(32, 223, &vec![[1, 254, 1, 255]; 16_382]),
        crowded_circuit(&mut random, 32, 223, LONGEST_CIRCUIT),
    ] {
        assert!(LONGEST_CIRCUIT - shorter.len() < 258);
        assert!(listing.compare_whole(&shorter) < LONGEST);
    }
    assert_eq!(listing.seen("well formed"), 5);
}

/// Circuits in texts of the eight lengths; short ones in texts of every length.
#[test]
fn a_text_takes_the_whole_listing_or_nothing() {
    let mut random = Random::from_seed(99);
    let mut listing = Listing::new();
    for _ in 0..1_000 {
        listing.compare_all(&any_circuit(&mut random));
    }
    for bytes in short_circuits(&mut random) {
        for length in 0..=6 * bytes.len() + 2 {
            drop(listing.of_both(&bytes, length));
        }
    }
    let least = [
        ("23", 3_000),
        ("listed in one walk", 2_000),
        ("listed and measured first", 3_000),
        ("text as long as the listing", 1_000),
    ];
    assert_reached(&listing.counts, &least);
}

/// What the listing of a table's circuit is, or the number alone where there is
/// no circuit.
fn lines(table: &[u8], n: u8) -> Vec<u8> {
    match compile_to_vec(table, n.into()) {
        Ok(circuit) => circuit_list_to_string(&circuit).unwrap().into_bytes(),
        Err(refusal) => format!("{}\n", refusal.number()).into_bytes(),
    }
}

/// Random tables, each behind its number of qubits, and PAIRS on each number.
fn program_inputs(random: &mut Random, tables: usize) -> Vec<Vec<u8>> {
    let by_size = on_many_qubits(random, tables, 1);
    let mut inputs: Vec<Vec<u8>> = by_size
        .map(|(table, n, _)| [&[n as u8], &table[..]].concat())
        .collect();
    for _ in 0..tables {
        let n = 1 + random.below(32) as u8;
        let table = encode(&program_by_size_left(random, n.into()));
        inputs.push([&[n], &table[..]].concat());
    }
    inputs.extend((0..=33).map(|n| [&[n], PAIRS].concat()));
    inputs
}

/// Counts what a listing shows.
fn count_lines(counts: &mut Counts, lines: &[u8]) {
    let refused = !lines.contains(&b' ');
    count(counts, "refused", refused);
    count(counts, "listed", !refused);
    let swaps = lines.windows(3).any(|three| three == b" S ");
    count(counts, "swap", swaps);
}

/// The listing of a table's circuit is what the listing program prints for the
/// table: the second interpreter says what that is.
#[test]
fn circuits_of_tables_are_listed_as_the_tables_are() {
    let mut random = Random::from_seed(100);
    let mut counts = Counts::new();
    for input in program_inputs(&mut random, 4_000) {
        let lines = lines(&input[1..], input[0]);
        assert_eq!(lines, listing(&input), "{input:02x?}");
        count_lines(&mut counts, &lines);
    }
    let least = [("listed", 7_000), ("swap", 1_000), ("refused", 200)];
    assert_reached(&counts, &least);
}

/// And the program itself, `target/bin/listing`.
#[test]
fn the_listing_program_prints_the_same() {
    let program = repository("target/bin/listing");
    assert!(program.is_file(), "it is not built: run tools/archive");
    let mut random = Random::from_seed(101);
    let mut counts = Counts::new();
    for input in program_inputs(&mut random, 300) {
        let lines = lines(&input[1..], input[0]);
        assert!(printed(&program, &[], &input) == lines, "{input:02x?}");
        count_lines(&mut counts, &lines);
    }
    let least = [("listed", 500), ("swap", 50), ("refused", 10)];
    assert_reached(&counts, &least);
}
