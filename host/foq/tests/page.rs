//! The bands of a circuit's page beside the second interpreter's page, on
//! circuits that are well formed, damaged or at a limit; texts of every length;
//! and places that no band gave. Each test counts the inputs of the classes
//! that it is meant to reach, so that it cannot run empty.

mod circuit_inputs;
mod counts;
mod lent;
mod room;

use circuit_inputs::{
    any_bytes, any_circuit, cut_and_longer, long_circuit, pairs, short_circuits, wires,
    with_false_counts, GATES_IN_A_BAND,
};
use counts::{assert_reached, count, Counts};
use foq::border::{page_band, Band};
use foq::{write_page, Refusal, MOST_BAND};
use foq_generator::circuits::{circuit, circuit_of, crowded_circuit, sizes};
use foq_generator::damage::{damaged, single_changes};
use foq_generator::Random;
use foq_reference::{gates_on, page, read_circuit, Circuit, Gate, LONGEST_CIRCUIT};
use room::Room;

/// The answer where a circuit is not well formed.
const REFUSED: Band = Band {
    number: 14,
    length: 0,
    next: 0,
};

/// A band as it is given: the place that was asked for, the answer, the text.
struct Given {
    place: u64,
    answer: Band,
    text: Vec<u8>,
}

/// Follows the places from 0 on, with a text that is long enough. Asserts that
/// each place is above the one before it and within the circuit.
fn followed(bytes: &[u8]) -> Vec<Given> {
    let mut text = vec![0; MOST_BAND];
    let mut bands = Vec::new();
    let mut place = 0;
    loop {
        let answer = page_band(bytes, place, &mut text);
        bands.push(Given {
            place,
            answer,
            text: text[..answer.length as usize].to_vec(),
        });
        if answer.next == 0 {
            return bands;
        }
        assert!(place < answer.next && answer.next < bytes.len() as u64);
        place = answer.next;
    }
}

/// The texts of all bands.
fn joined(bands: &[Given]) -> Vec<u8> {
    let texts: Vec<&[u8]> = bands.iter().map(|band| &band.text[..]).collect();
    texts.concat()
}

/// Asserts that the bands are those of a circuit that was read: no line passes
/// 80 columns, each band has a line for each wire, and the gates are read off.
fn assert_drawn(circuit: &Circuit, bands: &[Given]) {
    let page = joined(bands);
    let lines: Vec<&[u8]> = page.split_inclusive(|&byte| byte == b'\n').collect();
    assert_eq!(lines.len(), wires(circuit) * bands.len());
    assert!(lines.iter().all(|line| line.len() <= 81));
    assert!(bands.iter().all(|band| band.answer.number == 0));
    assert_eq!(gates_on(&page).as_ref(), Some(&circuit.gates));
}

/// Texts to ask for a band of this length with: as long as it, one byte less
/// and more, long enough for every band, and without a byte.
fn text_lengths(band: usize) -> [usize; 5] {
    [band, band.saturating_sub(1), band + 1, MOST_BAND, 0]
}

/// Texts that are lent, and what was seen of the bands.
struct Drawing {
    texts: Room,
    counts: Counts,
    asked: usize,
}

impl Drawing {
    fn new() -> Drawing {
        Drawing {
            texts: Room::up_to(MOST_BAND + 1),
            counts: Counts::new(),
            asked: 0,
        }
    }

    fn count(&mut self, class: &'static str, shown: bool) {
        count(&mut self.counts, class, shown);
    }

    /// Asks for a band with a text of this length out of the midst of other
    /// bytes. Asserts the answer, and that the text has the whole band in front
    /// or, where it is shorter, nothing of it.
    fn assert_given(&mut self, bytes: &[u8], band: &Given, length: usize) {
        let Given {
            place,
            answer,
            text,
        } = band;
        let fits = text.len() <= length;
        let written = if fits { &text[..] } else { &[] };
        let ask = |lent: &mut [u8]| page_band(bytes, *place, lent);
        let given = self.texts.lend(length, written, ask);
        assert_eq!(given, *answer, "place {place}, {length} of {bytes:02x?}");
        let drawn = answer.number == 0;
        self.count("text too short", drawn && !fits);
        self.count("text as long as the band", drawn && text.len() == length);
        self.count("14 and a text", !drawn && length > 0);
    }

    /// The same with one of the lengths, each in turn.
    fn assert_given_in_turn(&mut self, bytes: &[u8], band: &Given) {
        let lengths = text_lengths(band.text.len());
        self.asked += 1;
        self.assert_given(bytes, band, lengths[self.asked % lengths.len()]);
    }

    /// Asks both about a circuit, and for each band once more with another
    /// text.
    fn compare(&mut self, bytes: &[u8]) {
        let bands = followed(bytes);
        let drawn = page(bytes);
        match read_circuit(bytes) {
            Ok(circuit) => {
                assert!(joined(&bands) == drawn, "{bytes:02x?}");
                assert_drawn(&circuit, &bands);
                self.count_circuit(&circuit, bands.len());
            }
            Err(number) => {
                assert_eq!(drawn, format!("{number}\n").into_bytes());
                assert_eq!((bands.len(), bands[0].answer), (1, REFUSED));
                self.count("14", true);
            }
        }
        for band in &bands {
            self.assert_given_in_turn(bytes, band);
        }
    }

    fn count_circuit(&mut self, circuit: &Circuit, bands: usize) {
        let gates = circuit.gates.len();
        let last = gates - GATES_IN_A_BAND * (bands - 1);
        self.count("well formed", true);
        self.count("no gate", gates == 0);
        self.count("more than one band", bands > 1);
        self.count("last band of 18 gates", last == 18);
        self.count("last band full", last == GATES_IN_A_BAND);
        self.count("last band of one gate", bands > 1 && last == 1);
        self.count("more than ten bands", bands > 10);
        self.count("swap", circuit.gates.iter().any(Gate::is_swap));
        self.count("255 wires", wires(circuit) == 255);
        self.count("32 qubits", circuit.n == 32);
        self.count("one wire", wires(circuit) == 1);
    }

    fn seen(&self, class: &'static str) -> usize {
        self.counts.get(class).copied().unwrap_or(0)
    }
}

#[test]
fn well_formed_circuits_are_drawn_alike() {
    let mut random = Random::from_seed(71);
    let mut drawing = Drawing::new();
    for _ in 0..20_000 {
        drawing.compare(&any_circuit(&mut random));
    }
    let least = [
        ("well formed", 20_000),
        ("no gate", 1_000),
        ("more than one band", 12_000),
        ("last band of 18 gates", 2_000),
        ("last band full", 3_000),
        ("last band of one gate", 2_000),
        ("more than ten bands", 600),
        ("swap", 15_000),
        ("255 wires", 1_500),
        ("32 qubits", 500),
        ("one wire", 20),
        ("text too short", 20_000),
        ("text as long as the band", 10_000),
    ];
    assert_reached(&drawing.counts, &least);
}

/// The whole page at once too, as the bindings write it.
#[test]
fn circuits_of_pairs_are_drawn_alike() {
    let mut drawing = Drawing::new();
    for n in 1..=32 {
        let circuit = pairs(n);
        drawing.compare(&circuit);
        let mut written = Vec::new();
        write_page(&circuit, &mut written).unwrap().unwrap();
        assert!(written == page(&circuit));
        let cut = &circuit[..circuit.len() - 1];
        let mut written = Vec::new();
        let refused = write_page(cut, &mut written).unwrap();
        assert_eq!(refused, Err(Refusal::NOT_WELL_FORMED));
        assert!(written.is_empty());
    }
    let least = [("well formed", 32), ("more than one band", 20)];
    assert_reached(&drawing.counts, &least);
}

#[test]
fn every_single_change_is_drawn_alike() {
    let mut random = Random::from_seed(72);
    let mut drawing = Drawing::new();
    for bytes in short_circuits(&mut random) {
        for changed in single_changes(&bytes) {
            drawing.compare(&changed);
        }
    }
    let least = [
        ("well formed", 1_500),
        ("14", 40_000),
        ("more than one band", 300),
        ("14 and a text", 15_000),
    ];
    assert_reached(&drawing.counts, &least);
}

#[test]
fn damaged_circuits_are_drawn_alike() {
    let mut random = Random::from_seed(73);
    let mut drawing = Drawing::new();
    for _ in 0..20_000 {
        let whole = any_circuit(&mut random);
        drawing.compare(&damaged(&mut random, &whole));
    }
    let least = [
        ("well formed", 1_000),
        ("14", 15_000),
        ("more than one band", 300),
    ];
    assert_reached(&drawing.counts, &least);
}

#[test]
fn truncated_and_longer_circuits_are_refused_alike() {
    let mut random = Random::from_seed(74);
    let mut drawing = Drawing::new();
    for bytes in cut_and_longer(&mut random) {
        drawing.compare(&bytes);
    }
    assert_eq!(drawing.seen("well formed"), 0);
    assert_reached(&drawing.counts, &[("14", 10_000)]);
}

#[test]
fn false_counts_are_refused_alike() {
    let mut random = Random::from_seed(75);
    let mut drawing = Drawing::new();
    for _ in 0..500 {
        for bytes in with_false_counts(&mut random) {
            drawing.compare(&bytes);
        }
    }
    assert_eq!(drawing.seen("well formed"), 0);
    assert_reached(&drawing.counts, &[("14", 3_000)]);
}

#[test]
fn random_bytes_are_drawn_alike() {
    let mut random = Random::from_seed(76);
    let mut drawing = Drawing::new();
    for _ in 0..20_000 {
        drawing.compare(&any_bytes(&mut random));
    }
    drawing.compare(&[]);
    let least = [("14", 19_000), ("well formed", 100)];
    assert_reached(&drawing.counts, &least);
}

#[test]
fn circuits_about_the_longest_length_are_drawn_alike() {
    let mut random = Random::from_seed(77);
    let mut drawing = Drawing::new();
    for length in LONGEST_CIRCUIT - 2..=LONGEST_CIRCUIT + 2 {
        let bytes = long_circuit(length, 2, 0);
        assert_eq!(bytes.len(), length);
        drawing.compare(&bytes);
    }
    drawing.compare(&long_circuit(2 * LONGEST_CIRCUIT, 2, 0));
    for make in [circuit, crowded_circuit] {
        for _ in 0..3 {
            let (n, ancillas) = sizes(&mut random);
            drawing.compare(&make(&mut random, n, ancillas, LONGEST_CIRCUIT));
        }
    }
    assert_eq!((drawing.seen("well formed"), drawing.seen("14")), (9, 3));
}

/// The longest page there is: 32,763 NOTs and a swap, on 255 wires.
#[test]
fn the_longest_page_is_drawn_alike() {
    let bytes = long_circuit(LONGEST_CIRCUIT, 32, 223);
    let bands = followed(&bytes);
    assert_eq!(bands.len(), 1_725);
    let full = bands.iter().filter(|band| band.text.len() == MOST_BAND);
    assert_eq!(full.count(), 1_724);
    let drawn = joined(&bands);
    assert_eq!(drawn.len(), 255 * (1_725 * 5 + 32_764 * 4));
    assert!(drawn == page(&bytes));
    assert_drawn(&read_circuit(&bytes).unwrap(), &bands);
}

/// Every band in texts of the five lengths; the bands of short circuits in
/// texts of every length.
#[test]
fn a_text_takes_the_whole_band_or_nothing() {
    let mut random = Random::from_seed(78);
    let mut drawing = Drawing::new();
    for _ in 0..1_000 {
        let bytes = any_circuit(&mut random);
        for band in followed(&bytes) {
            for length in text_lengths(band.text.len()) {
                drawing.assert_given(&bytes, &band, length);
            }
        }
    }
    for bytes in short_circuits(&mut random) {
        for band in followed(&bytes) {
            for length in 0..=band.text.len() + 2 {
                drawing.assert_given(&bytes, &band, length);
            }
        }
    }
    let bytes = circuit(&mut random, 32, 223, 100);
    for band in &followed(&bytes)[..5] {
        assert_eq!(band.text.len(), MOST_BAND);
        drawing.assert_given(&bytes, band, MOST_BAND - 1);
        drawing.assert_given(&bytes, band, MOST_BAND + 1);
    }
    let least = [
        ("text too short", 5_000),
        ("text as long as the band", 2_000),
    ];
    assert_reached(&drawing.counts, &least);
}

/// The length of a circuit's header.
const HEADER: usize = 7;

/// What is to be given at a place.
fn band_said(bytes: &[u8], place: u64) -> Given {
    let said = gates_at(bytes, place).and_then(|at| band_from(bytes, at));
    let (answer, text) = said.unwrap_or((REFUSED, vec![]));
    Given {
        place,
        answer,
        text,
    }
}

/// Where the gates of a band are read. For place 0 it is behind the header, if
/// the whole circuit is well formed. Another place is where it says, if that is
/// behind the first gate's and within a circuit that is not too long: `foq.h`
/// leaves these two open, and the definition, `page_band`, refuses them.
fn gates_at(bytes: &[u8], place: u64) -> Option<usize> {
    if place == 0 {
        return read_circuit(bytes).ok().map(|_| HEADER);
    }
    let place = usize::try_from(place).ok()?;
    let within = HEADER < place && place < bytes.len();
    (within && bytes.len() <= LONGEST_CIRCUIT).then_some(place)
}

/// "the gates of one band, over the header's wires", drawn by the second
/// interpreter as a circuit of their own.
fn band_from(bytes: &[u8], place: usize) -> Option<(Band, Vec<u8>)> {
    let wires = bytes[1].checked_add(bytes[2])?;
    let (gates, end) = gates_from(bytes, place)?;
    let n = wires.min(32);
    let header = [1, n, wires - n, gates, 0, 0, 0];
    let alone = [&header, &bytes[place..end]].concat();
    read_circuit(&alone).ok()?;
    let text = page(&alone);
    let answer = Band {
        number: 0,
        length: text.len() as u64,
        next: if end < bytes.len() { end as u64 } else { 0 },
    };
    Some((answer, text))
}

/// How many gates stand from a place on, at most nineteen, and the place behind
/// them, by their maps and counts. None where the bytes end within a gate.
fn gates_from(bytes: &[u8], place: usize) -> Option<(u8, usize)> {
    let (mut gates, mut end) = (0, place);
    while usize::from(gates) < GATES_IN_A_BAND && end < bytes.len() {
        end = gate_end(bytes, end)?;
        gates += 1;
    }
    Some((gates, end))
}

/// "A gate is a map, the target wire, then what the map's bits say": the place
/// behind it, whether or not it is well formed.
fn gate_end(bytes: &[u8], place: usize) -> Option<usize> {
    let map = bytes[place];
    let mut end = place + 2;
    for bit in [1, 2] {
        if map & bit != 0 {
            end += 1 + usize::from(*bytes.get(end)?);
        }
    }
    end += usize::from(map & 4 != 0);
    (end <= bytes.len()).then_some(end)
}

/// Places to ask for: every one up to the end and some behind it.
fn places(bytes: &[u8]) -> impl Iterator<Item = u64> {
    let length = bytes.len() as u64;
    let far = [
        length + 1_000,
        1 << 16,
        1 << 32,
        (1 << 32) + 9,
        1 << 63,
        u64::MAX - 6,
        u64::MAX,
    ];
    (0..length + 3).chain(far)
}

/// The places where gates begin, by maps and counts.
fn gate_places(bytes: &[u8]) -> Vec<u64> {
    let mut places = Vec::new();
    let mut place = HEADER;
    while place < bytes.len() {
        places.push(place as u64);
        place = gate_end(bytes, place).unwrap_or(bytes.len());
    }
    places
}

impl Drawing {
    /// Asks for a band at every place.
    fn compare_places(&mut self, bytes: &[u8]) {
        let gates = gate_places(bytes);
        let well_formed = read_circuit(bytes).is_ok();
        for place in places(bytes) {
            let said = band_said(bytes, place);
            self.assert_given_in_turn(bytes, &said);
            let given = said.answer.number == 0;
            self.count("of no circuit, a band", !well_formed && given);
            let behind = place >= bytes.len() as u64;
            let class = match (place, given) {
                (0, _) => "place 0",
                (1..=7, false) => "1 to 7, 14",
                (_, false) if behind => "at the end or past it, 14",
                (_, false) if gates.contains(&place) => "at a gate, 14",
                (_, true) if gates.contains(&place) => "at a gate, a band",
                (_, false) => "inside a gate, 14",
                (_, true) => "inside a gate, a band",
            };
            self.count(class, true);
        }
    }
}

#[test]
fn places_that_no_band_gave_are_answered_as_defined() {
    let mut random = Random::from_seed(79);
    let mut drawing = Drawing::new();
    drawing.compare_places(&pairs(32));
    for turn in 0..1_500 {
        let gates = random.below(45);
        let (n, ancillas) = (1 + random.below(8) as u8, random.below(6) as u8);
        let whole = circuit(&mut random, n, ancillas, gates);
        drawing.compare_places(&whole);
        if turn % 2 == 0 {
            drawing.compare_places(&damaged(&mut random, &whole));
        }
        if turn % 10 == 0 {
            let (n, ancillas) = sizes(&mut random);
            drawing.compare_places(&circuit(&mut random, n, ancillas, gates));
        }
    }
    for _ in 0..2_000 {
        drawing.compare_places(&any_bytes(&mut random));
    }
    let least = [
        ("1 to 7, 14", 20_000),
        ("at a gate, a band", 30_000),
        ("at a gate, 14", 5_000),
        ("inside a gate, a band", 10_000),
        ("inside a gate, 14", 100_000),
        ("at the end or past it, 14", 20_000),
        ("of no circuit, a band", 5_000),
    ];
    assert_reached(&drawing.counts, &least);
}

/// A later band reads neither edition nor gate count, and of the other two
/// numbers of the header only their sum.
#[test]
fn later_bands_are_read_over_the_wires_of_the_header_alone() {
    let mut random = Random::from_seed(80);
    let mut drawing = Drawing::new();
    let whole = circuit(&mut random, 4, 3, 60);
    for changed in single_changes(&whole[..HEADER]) {
        let bytes = [&changed, &whole[HEADER..]].concat();
        for band in &followed(&whole)[1..] {
            let said = band_said(&bytes, band.place);
            drawing.assert_given_in_turn(&bytes, &said);
            drawing.count("a band", said.answer.number == 0);
            drawing.count("14", said.answer == REFUSED);
        }
    }
    for (n, ancillas) in [
        (0, 0),
        (0, 7),
        (0, 255),
        (33, 0),
        (255, 0),
        (255, 1),
        (128, 128),
    ] {
        let mut bytes = whole.clone();
        (bytes[1], bytes[2]) = (n, ancillas);
        drawing.compare_places(&bytes);
    }
    let least = [("a band", 5_000), ("14", 5), ("of no circuit, a band", 300)];
    assert_reached(&drawing.counts, &least);
}

#[test]
fn later_bands_of_circuits_that_are_too_long_are_refused() {
    let mut drawing = Drawing::new();
    for length in LONGEST_CIRCUIT - 2..=LONGEST_CIRCUIT + 2 {
        let bytes = long_circuit(length, 2, 0);
        let end = length as u64;
        for place in [
            8,
            9,
            10,
            45,
            46,
            1_000,
            end - 3,
            end - 2,
            end - 1,
            end,
            end + 1,
        ] {
            let said = band_said(&bytes, place);
            drawing.assert_given_in_turn(&bytes, &said);
            let given = said.answer.number == 0;
            assert!(!given || length <= LONGEST_CIRCUIT);
            drawing.count("a band", given);
            drawing.count("14", !given);
        }
    }
    assert_reached(&drawing.counts, &[("a band", 10), ("14", 25)]);
}

/// Gates behind a full band: the first five are well formed on five wires, the
/// others are not.
#[test]
fn a_wrong_gate_of_a_later_band_is_refused_there() {
    let mut drawing = Drawing::new();
    let nots: Vec<&[u8]> = vec![&[0, 1]; GATES_IN_A_BAND];
    let gates: [&[u8]; 10] = [
        &[0, 5],
        &[1, 1, 1, 5],
        &[2, 1, 2, 4, 5],
        &[4, 1, 5],
        &[7, 2, 1, 1, 1, 3, 5],
        &[0, 6],
        &[1, 5, 1, 5],
        &[4, 5, 1],
        &[8, 1],
        &[1, 1, 0],
    ];
    for gate in gates {
        for behind in [0, 1, 18, 19, 20] {
            let row = [&nots[..], &[gate], &vec![&[0u8, 2][..]; behind]].concat();
            let bytes = circuit_of(5, 0, &row);
            drawing.compare(&bytes);
            let second = band_said(&bytes, 7 + 2 * 19);
            drawing.assert_given(&bytes, &second, MOST_BAND);
            drawing.count("a band", second.answer.number == 0);
            drawing.count("no band", second.answer == REFUSED);
        }
    }
    assert_eq!((drawing.seen("a band"), drawing.seen("no band")), (25, 25));
}
