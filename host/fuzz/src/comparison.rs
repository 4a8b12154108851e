//! Both sides are asked, and their answers held against each other.

use crate::input::{Circuit, Input, Table};
use crate::operations::Operations;
use foq::border::{self, Answer, Band};
use foq::MOST_BAND;
use foq_expected as expected;
use foq_reference::{emission, read_circuit, read_table, Gate, LONGEST_CIRCUIT};
use std::fmt::Debug;

/// What the answers look like from afar. An input of a class that was not seen
/// before is worth keeping. Sizes go by the number of their bits.
#[derive(Clone, Copy, Debug, Default, PartialEq, Eq, PartialOrd, Ord)]
pub struct Class {
    /// Whether the input is a table; otherwise it is a circuit.
    pub is_table: bool,
    /// The number that verdict gives.
    pub verdict: u32,
    /// The number that compile gives, with a room that is always enough.
    pub compile: u32,
    /// The number that inverse gives, with a room as long as the table.
    pub inverse: u32,
    /// The number that the run of the table or circuit gives.
    pub run: u32,
    /// The circuit's length or, where there is none, the table's.
    pub length: usize,
    /// The circuit's ancillas; the very number where a table has them.
    pub ancillas: usize,
    /// The circuit's gates.
    pub gates: usize,
    /// The swaps among them.
    pub swaps: usize,
    /// Whether two procedures of a table meet at one list length.
    pub meets: bool,
    /// Whether the bodies at such a length do not go in the order called.
    pub reordered: bool,
}

impl Class {
    /// Adds the size of a circuit, and of its gates where it is well formed.
    fn with_circuit(self, circuit: &[u8], gates: Option<Vec<Gate>>) -> Class {
        let length = magnitude(circuit.len());
        let Some(gates) = gates else {
            return Class { length, ..self };
        };
        let swaps = gates.iter().filter(|gate| gate.is_swap()).count();
        Class {
            length,
            ancillas: magnitude(circuit[2].into()),
            gates: magnitude(gates.len()),
            swaps: magnitude(swaps),
            ..self
        }
    }

    /// Adds how the bodies of a table that has a circuit stand to each other.
    fn with_bodies(self, table: &Table) -> Class {
        let emitted = read_table(&table.bytes)
            .and_then(|program| emission(&program, table.n, LONGEST_CIRCUIT));
        let tally = emitted.map(|emitted| emitted.tally).unwrap_or_default();
        Class {
            meets: tally.most_of_one_length > 1,
            reordered: tally.reordered > 0,
            ..self
        }
    }
}

/// What differs, in words.
pub type Difference = String;

/// Both answers, which must be the same.
fn same<T: PartialEq + Debug>(what: &str, product: T, second: T) -> Result<T, Difference> {
    if product == second {
        return Ok(product);
    }
    Err(format!("{what}: {product:?} instead of {second:?}"))
}

/// The same of two texts.
fn same_text(what: &str, product: &[u8], second: &[u8]) -> Result<(), Difference> {
    if product == second {
        return Ok(());
    }
    let [product, second] = [product, second].map(String::from_utf8_lossy);
    same(what, product, second).map(drop)
}

/// A byte that stands where nothing is written.
const DIRT: u8 = 0xA5;
/// Bytes on either side of what is lent.
const MARGIN: usize = 64;

/// Whether nothing was written here.
fn unchanged(bytes: &[u8]) -> bool {
    bytes.iter().all(|&byte| byte == DIRT)
}

/// Lends dirty bytes out of the midst of others, which must stay as they are.
/// Gives the answer and the bytes afterwards.
fn lend<T>(length: usize, call: impl FnOnce(&mut [u8]) -> T) -> Result<(T, Vec<u8>), Difference> {
    let mut bytes = vec![DIRT; MARGIN + length + MARGIN];
    let answer = call(&mut bytes[MARGIN..][..length]);
    let after = bytes.split_off(MARGIN + length);
    let lent = bytes.split_off(MARGIN);
    same("bytes around", unchanged(&bytes) && unchanged(&after), true)?;
    Ok((answer, lent))
}

/// Lends a workspace, which must come back as zeros.
fn with_workspace<T>(length: usize, call: impl FnOnce(&mut [u8]) -> T) -> Result<T, Difference> {
    let (answer, workspace) = lend(length, call)?;
    let zero = workspace.iter().all(|&byte| byte == 0);
    same("workspace is zero", zero, true)?;
    Ok(answer)
}

/// A size by the number of its bits.
fn magnitude(size: usize) -> usize {
    (usize::BITS - size.leading_zeros()) as usize
}

fn verdict(product: &impl Operations, table: &Table) -> Result<u32, Difference> {
    let Table { bytes, n, .. } = table;
    let ours = with_workspace(table.workspace, |lent| product.verdict(bytes, *n, lent))?;
    let theirs = foq_reference::verdict(bytes, *n, table.workspace);
    same("verdict", ours, theirs)
}

fn run(product: &impl Operations, table: &Table) -> Result<Answer, Difference> {
    let Table { bytes, n, word, .. } = table;
    let ours = with_workspace(table.workspace, |lent| product.run(bytes, *n, *word, lent))?;
    let theirs = foq_reference::run(bytes, *n, *word, table.workspace);
    same("run", ours, expected::answer(theirs))
}

/// What is written into a room: a number, and the bytes where that is 0.
struct Written {
    number: u32,
    bytes: Vec<u8>,
}

impl Written {
    fn new(given: Result<Vec<u8>, u32>) -> Written {
        Written {
            number: given.as_ref().err().copied().unwrap_or(0),
            bytes: given.unwrap_or_default(),
        }
    }
}

/// Compiles into a room of this length.
fn compile(product: &impl Operations, table: &Table, length: usize) -> Result<Written, Difference> {
    let Table { bytes, n, .. } = table;
    let (ours, room) = lend(length, |room| {
        with_workspace(table.workspace, |workspace| {
            product.compile(bytes, *n, room, workspace)
        })
    })?;
    let theirs = foq_reference::compile(bytes, *n, length, table.workspace);
    same("compile", ours?, expected::written(&theirs))?;
    let theirs = Written::new(theirs);
    let (written, rest) = room.split_at(theirs.bytes.len());
    same("circuit", written, &theirs.bytes[..])?;
    same("room's rest", unchanged(rest), true)?;
    Ok(theirs)
}

/// Inverts a table into a room of this length.
fn invert_into(
    product: &impl Operations,
    table: &Table,
    length: usize,
) -> Result<Written, Difference> {
    let Table { bytes, n, .. } = table;
    let (ours, room) = lend(length, |room| product.inverse(bytes, *n, room))?;
    let theirs = foq_reference::inverse(bytes, *n, length);
    same("inverse", ours, expected::written(&theirs))?;
    let theirs = Written::new(theirs);
    let (written, rest) = room.split_at(theirs.bytes.len());
    same("inverse's table", written, &theirs.bytes[..])?;
    same("inverse's rest", unchanged(rest), true)?;
    Ok(theirs)
}

/// Inverts a table into a room of the length at hand, into one that lacks a byte,
/// and into one that is just long enough.
fn invert(product: &impl Operations, table: &Table) -> Result<Written, Difference> {
    let length = table.bytes.len();
    invert_into(product, table, table.room)?;
    invert_into(product, table, length.saturating_sub(1))?;
    invert_into(product, table, length)
}

/// Reads a circuit. Gives its gates, where it is well formed.
fn read(product: &impl Operations, circuit: &[u8]) -> Result<Option<Vec<Gate>>, Difference> {
    let theirs = read_circuit(circuit);
    let header = expected::header(&theirs);
    same("circuit read", product.circuit_read(circuit), header)?;
    Ok(theirs.ok().map(|circuit| circuit.gates))
}

fn run_circuit(
    product: &impl Operations,
    circuit: &[u8],
    word: u64,
) -> Result<border::Block, Difference> {
    let theirs = foq_reference::circuit_run(circuit, word);
    let block = expected::block(theirs);
    same("circuit run", product.circuit_run(circuit, word), block)
}

/// Lists a circuit into a text of this length. Gives the length of what stands
/// there.
fn list_into(
    product: &impl Operations,
    circuit: &[u8],
    length: usize,
) -> Result<usize, Difference> {
    let (ours, text) = lend(length, |text| product.circuit_list(circuit, text))?;
    let theirs = foq_reference::circuit_list(circuit, length);
    same("circuit list", ours, expected::written(&theirs))?;
    let listing = theirs.unwrap_or_default();
    let (put, rest) = text.split_at(listing.len());
    same_text("circuit list's text", put, &listing)?;
    same("circuit list's rest", unchanged(rest), true)?;
    Ok(listing.len())
}

/// Lists a circuit into a text that is long enough for one walk, into one that is
/// just long enough, and into one that lacks a byte.
fn list(product: &impl Operations, circuit: &[u8]) -> Result<(), Difference> {
    let length = list_into(product, circuit, 6 * circuit.len())?;
    list_into(product, circuit, length)?;
    list_into(product, circuit, length.saturating_sub(1))?;
    Ok(())
}

/// One band of a page and its text: asked for first with a text that has no byte,
/// then with one that is just long enough.
fn band(
    product: &impl Operations,
    circuit: &[u8],
    place: u64,
) -> Result<(Band, Vec<u8>), Difference> {
    let measured = product.page_band(circuit, place, &mut []);
    let length = usize::try_from(measured.length).unwrap_or(usize::MAX);
    same("page's band is short", length <= MOST_BAND, true)?;
    let (band, text) = lend(length, |text| product.page_band(circuit, place, text))?;
    same("page's band", band, measured)?;
    Ok((band, text))
}

/// What a band has on the page: its text, or the number of a refusal alone, beside
/// which there is nothing.
fn drawn(band: Band, text: Vec<u8>) -> Result<Vec<u8>, Difference> {
    let number = band.number;
    if number == 0 {
        return Ok(text);
    }
    let alone = Band {
        number,
        ..Band::default()
    };
    same("page's refusal", band, alone)?;
    Ok(format!("{number}\n").into_bytes())
}

/// The bands from place 0 on make up the page.
fn draw(product: &impl Operations, circuit: &[u8]) -> Result<(), Difference> {
    let page = foq_reference::page(circuit);
    let mut rest = &page[..];
    let mut place = 0;
    loop {
        let (band, text) = band(product, circuit, place)?;
        let ours = drawn(band, text)?;
        let (theirs, behind) = rest.split_at(ours.len().min(rest.len()));
        same_text("page", &ours, theirs)?;
        rest = behind;
        if band.next == 0 {
            return same_text("page's end", &[], rest);
        }
        same("page's places ascend", place < band.next, true)?;
        place = band.next;
    }
}

/// The circuit of a table ends as its run does, with nothing but the end word
/// in the block.
fn runs_alike(
    product: &impl Operations,
    table: &Table,
    circuit: &[u8],
) -> Result<Answer, Difference> {
    let ran = run(product, table)?;
    let block = run_circuit(product, circuit, table.word)?;
    if ran.number == 0 {
        let mut bits = [0; foq::BLOCK_LENGTH];
        bits[..8].copy_from_slice(&ran.value.to_le_bytes());
        same("wires at the end", block.bits, bits)?;
    }
    Ok(ran)
}

/// The inverse of a table takes its run back, from the end word to the start
/// word.
fn run_back(
    product: &impl Operations,
    table: &Table,
    inverse: Vec<u8>,
    end: u64,
) -> Result<(), Difference> {
    let back = Table {
        bytes: inverse,
        word: end,
        ..table.clone()
    };
    let ran = run(product, &back)?;
    same("run back", ran, expected::answer(Ok(table.word)))?;
    Ok(())
}

/// A table is judged, compiled into a room that is always enough and into one of
/// the length at hand, inverted and run. Where it has a circuit it is also
/// compiled into a room of just that length and of one byte less, its run is
/// taken back, and the circuit is listed and drawn. Where its circuit does not
/// fit it is not run: that could take for ever.
fn compare_table(product: &impl Operations, table: &Table) -> Result<Class, Difference> {
    let judged = verdict(product, table)?;
    let compiled = compile(product, table, LONGEST_CIRCUIT)?;
    compile(product, table, table.room)?;
    let inverted = invert(product, table)?;
    let mut class = Class {
        is_table: true,
        verdict: judged,
        compile: compiled.number,
        inverse: inverted.number,
        length: magnitude(table.bytes.len()),
        ..Class::default()
    };
    if compiled.number == 0 {
        let circuit = compiled.bytes;
        compile(product, table, circuit.len())?;
        compile(product, table, circuit.len() - 1)?;
        let ran = runs_alike(product, table, &circuit)?;
        if ran.number == 0 {
            run_back(product, table, inverted.bytes, ran.value)?;
        }
        class.run = ran.number;
        list(product, &circuit)?;
        draw(product, &circuit)?;
        class = class.with_circuit(&circuit, read(product, &circuit)?);
        class = class.with_bodies(table);
        class.ancillas = circuit[2].into();
    } else if judged != 0 {
        class.run = run(product, table)?.number;
    }
    Ok(class)
}

fn compare_circuit(product: &impl Operations, circuit: &Circuit) -> Result<Class, Difference> {
    let Circuit { bytes, word } = circuit;
    let gates = read(product, bytes)?;
    let run = run_circuit(product, bytes, *word)?.number;
    list(product, bytes)?;
    draw(product, bytes)?;
    let class = Class {
        run,
        ..Class::default()
    };
    Ok(class.with_circuit(bytes, gates))
}

/// Asks both sides. Gives the class of their answers.
///
/// # Errors
/// What differs.
pub fn compare(product: &impl Operations, input: &Input) -> Result<Class, Difference> {
    match input {
        Input::Table(table) => compare_table(product, table),
        Input::Circuit(circuit) => compare_circuit(product, circuit),
    }
}

/// Holds the listing program's output for a table against the second
/// interpreter's. Says whether there is such a program.
///
/// # Errors
/// What differs.
pub fn compare_listing(product: &impl Operations, table: &Table) -> Result<bool, Difference> {
    let Ok(n) = u8::try_from(table.n) else {
        return Ok(false);
    };
    let input = [&[n], &table.bytes[..]].concat();
    let Some(ours) = product.listing(&input) else {
        return Ok(false);
    };
    same_text("listing", &ours, &foq_reference::listing(&input))?;
    Ok(true)
}
