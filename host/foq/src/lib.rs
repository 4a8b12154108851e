//! FOQ programs from Rust: safe bindings of `libfoq.a`, whose code is proved.
//!
//! A *table* is a FOQ program as bytes. It works on n qubits, 1 to 32, and its
//! only operator is NOT: from a basis state it ends in a basis state. Such a
//! state is a *word*, in which qubit i is bit i − 1. A *circuit* is the same
//! program as controlled NOTs and swaps, also as bytes.
//!
//! | Function | What it does |
//! |---|---|
//! | [`verdict`] | accepts a table, or refuses it |
//! | [`run`] | runs a table from a start word to its end word |
//! | [`compile`], [`compile_to_vec`] | translates a table into its circuit |
//! | [`inverse`], [`inverse_to_vec`] | writes the table whose run takes a table's run back |
//! | [`circuit_read`] | reads a circuit: its qubits, ancillas and gates |
//! | [`circuit_run`] | runs a circuit from a start word |
//! | [`circuit_list`], [`circuit_list_to_string`] | lists a circuit, gate by gate |
//! | [`page_band`], [`write_page`] | draws a circuit on a page of 80 columns |
//!
//! [`PAIRS`] is a table to try. Its circuit ends as its run does, whatever the
//! word:
//!
//! ```
//! use foq::{circuit_run, compile_to_vec, run, LEAST_WORKSPACE, PAIRS};
//!
//! let circuit = compile_to_vec(PAIRS, 3)?;
//! for word in 0..8 {
//!     let end = run(PAIRS, 3, word, &mut [0; LEAST_WORKSPACE])?;
//!     assert_eq!(circuit_run(&circuit, word)?.word(), end);
//! }
//! # Ok::<(), foq::Refusal>(())
//! ```
//!
//! Every input has its answer, a refusal with its number among them. The
//! functions take no memory of their own but stack; [`verdict`], [`run`] and
//! [`compile`] are lent a workspace of at least [`LEAST_WORKSPACE`] bytes, which
//! may hold anything and is zero afterwards. What is proved of each answer, how
//! much stack is enough, and what tables and circuits look like stands in
//! `host/include/foq.h`.
//!
//! The functions here give a [`Result`]; those of [`border`] give the structs
//! that C sees. The archive must be there before this crate is built:
//! `tools/archive` in the repository makes it.

pub mod border;
mod refusal;

pub use border::{BLOCK_LENGTH, LEAST_WORKSPACE, MOST_BAND, MOST_CIRCUIT, MOST_LISTING};
pub use refusal::Refusal;
use std::io::{self, Write};

/// A table to try, PAIRS of document 01. Its procedure flips its qubit where it
/// has one; otherwise it calls itself without its first two qubits where these
/// are alike.
pub const PAIRS: &[u8] = include_bytes!("../../../examples/pairs.foq");

/// A circuit's header.
#[derive(Clone, Copy, Debug, PartialEq, Eq)]
pub struct Circuit {
    /// The number of data wires, 1 to 32.
    pub qubits: u32,
    /// The number of ancillas.
    pub ancillas: u32,
    /// The number of gates.
    pub gates: u32,
}

/// The wires of a circuit at the end of a run.
#[derive(Clone, Copy, Debug, PartialEq, Eq)]
pub struct Block {
    /// The number of data wires.
    pub data: u8,
    /// The number of ancillas, whose wires follow the data wires.
    pub ancillas: u8,
    /// The wires' bits; those past the last wire are zero.
    pub bits: [u8; BLOCK_LENGTH],
}

impl Block {
    /// The bit of a wire; wires count from 1, and there is no wire 0.
    ///
    /// ```
    /// let circuit = foq::compile_to_vec(foq::PAIRS, 3)?;
    /// let block = foq::circuit_run(&circuit, 0)?;
    /// let wires: Vec<bool> = (1..=6).map(|wire| block.holds(wire)).collect();
    /// assert_eq!(wires, [false, false, true, false, false, false]);
    /// # Ok::<(), foq::Refusal>(())
    /// ```
    #[must_use]
    pub fn holds(&self, wire: u8) -> bool {
        match wire.checked_sub(1) {
            Some(place) => self.bits[usize::from(place / 8)] >> (place % 8) & 1 == 1,
            None => false,
        }
    }

    /// The word of the data wires.
    ///
    /// ```
    /// let circuit = foq::compile_to_vec(foq::PAIRS, 3)?;
    /// assert_eq!(foq::circuit_run(&circuit, 3)?.word(), 7);
    /// # Ok::<(), foq::Refusal>(())
    /// ```
    #[must_use]
    pub fn word(&self) -> u64 {
        let wires = 1..=self.data.min(32);
        let bits = wires.map(|wire| u64::from(self.holds(wire)) << (wire - 1));
        bits.sum()
    }
}

/// One band of a circuit's page.
#[derive(Clone, Copy, Debug, PartialEq, Eq)]
pub struct Band {
    /// The band's length in bytes.
    pub length: usize,
    /// The place where the next band begins; 0 behind the last one.
    pub next: u64,
}

/// The verdict: whether a table is accepted for n qubits. The workspace is zero
/// afterwards.
///
/// ```
/// use foq::{verdict, Refusal, LEAST_WORKSPACE, PAIRS};
///
/// let workspace = &mut [0; LEAST_WORKSPACE];
/// assert_eq!(verdict(PAIRS, 3, workspace), Ok(()));
/// assert_eq!(verdict(PAIRS, 33, workspace), Err(Refusal::WRONG_QUBITS));
/// ```
///
/// # Errors
/// [`Refusal::WRONG_QUBITS`]; then 1 to 8, record by record, in the order that
/// `foq.h` gives; then [`Refusal::NO_REMOVAL`], [`Refusal::TOO_WIDE`],
/// [`Refusal::ACCESS_FAULT`] and [`Refusal::SHORT_WORKSPACE`].
pub fn verdict(table: &[u8], n: u32, workspace: &mut [u8]) -> Result<(), Refusal> {
    Refusal::unless_success(border::verdict(table, n, workspace))
}

/// The run: the end word of a table on n qubits from a start word. The
/// workspace is zero afterwards. Nothing refuses a long run.
///
/// ```
/// use foq::{run, Refusal, LEAST_WORKSPACE, PAIRS};
///
/// let workspace = &mut [0; LEAST_WORKSPACE];
/// assert_eq!(run(PAIRS, 3, 0, workspace), Ok(4));
/// assert_eq!(run(PAIRS, 3, 8, workspace), Err(Refusal::HIGH_BIT));
/// ```
///
/// A number of base 2 adds the size of what the removals of its record have
/// left so far. Here a NOT removes the first qubit and the last of the others,
/// and flips the last that is left:
///
/// ```
/// use foq::{run, LEAST_WORKSPACE};
///
/// let first = [0, 1, 0]; // base 0, constant 1
/// let last_left = [2, 0, 0]; // base 2, constant 0
/// let mut table = vec![1, 0, 3, 1, 2];
/// table.extend([first, last_left, last_left].concat());
/// assert_eq!(run(&table, 4, 0, &mut [0; LEAST_WORKSPACE]), Ok(0b0100));
/// ```
///
/// # Errors
/// Those of [`verdict`], with [`Refusal::HIGH_BIT`] before
/// [`Refusal::SHORT_WORKSPACE`].
pub fn run(table: &[u8], n: u32, word: u64, workspace: &mut [u8]) -> Result<u64, Refusal> {
    let answer = border::run(table, n, word, workspace);
    Refusal::unless_success(answer.number)?;
    Ok(answer.value)
}

/// Compile: the circuit of a table on n qubits is written into the room, whose
/// rest stays as it was; a refusal leaves all of it. Gives the circuit's bytes
/// within the room. The workspace is zero afterwards.
///
/// ```
/// use foq::{compile, Refusal, LEAST_WORKSPACE, PAIRS};
///
/// let workspace = &mut [0; LEAST_WORKSPACE];
/// let room = &mut [0; 49];
/// assert_eq!(compile(PAIRS, 3, room, workspace)?.len(), 49);
/// let short = &mut [0; 48];
/// assert_eq!(compile(PAIRS, 3, short, workspace), Err(Refusal::NO_ROOM));
/// # Ok::<(), foq::Refusal>(())
/// ```
///
/// # Errors
/// Those of [`verdict`]; then [`Refusal::NO_ROOM`] for the header, then
/// [`Refusal::MANY_WIRES`] or [`Refusal::NO_ROOM`] at the first ancilla or gate
/// that does not fit.
pub fn compile<'a>(
    table: &[u8],
    n: u32,
    room: &'a mut [u8],
    workspace: &mut [u8],
) -> Result<&'a [u8], Refusal> {
    let answer = border::compile(table, n, room, workspace);
    Refusal::unless_success(answer.number)?;
    let length = usize::try_from(answer.value).expect("a circuit lies within its room");
    Ok(&room[..length])
}

/// Compile with a room and a workspace of its own, in which every circuit has
/// its place: the circuit's bytes.
///
/// ```
/// let circuit = foq::compile_to_vec(foq::PAIRS, 3)?;
/// // Edition, qubits, ancillas and four bytes of gate count.
/// assert_eq!(circuit[..7], [1, 3, 3, 9, 0, 0, 0]);
/// # Ok::<(), foq::Refusal>(())
/// ```
///
/// # Errors
/// Those of [`compile`].
pub fn compile_to_vec(table: &[u8], n: u32) -> Result<Vec<u8>, Refusal> {
    let mut room = vec![0; MOST_CIRCUIT];
    let circuit = compile(table, n, &mut room, &mut vec![0; LEAST_WORKSPACE])?;
    Ok(circuit.to_vec())
}

/// The inverse: the table whose run on n qubits takes a table's run back is
/// written into the room, whose rest stays as it was; a refusal leaves all of
/// it. In every sequence the two statements have changed places, and everything
/// else is kept, so the inverse is as long as the table. Gives the inverse's
/// bytes within the room.
///
/// ```
/// use foq::{inverse, run, Refusal, LEAST_WORKSPACE};
///
/// // Flip qubit 2 where qubit 1 is one, then flip qubit 1.
/// let table = [
///     1, 0, 0, 2, 2, 4, 0, 1, 0, 0, 0, 2, 1, 0, 2, 0, 2, 1, 0, 1, 0,
/// ];
/// let room = &mut [0; 21];
/// let back = inverse(&table, 2, room)?;
/// let workspace = &mut [0; LEAST_WORKSPACE];
/// for word in 0..4 {
///     let end = run(&table, 2, word, workspace)?;
///     assert_eq!(run(back, 2, end, workspace), Ok(word));
/// }
/// // Inverting again gives the first table's bytes.
/// assert_eq!(inverse(back, 2, &mut [0; 21])?, table);
/// assert_eq!(inverse(&table, 2, &mut [0; 20]), Err(Refusal::SHORT_TABLE_ROOM));
/// # Ok::<(), Refusal>(())
/// ```
///
/// # Errors
/// Those of [`verdict`] but [`Refusal::SHORT_WORKSPACE`]; then
/// [`Refusal::SHORT_TABLE_ROOM`] where the room is shorter than the table.
pub fn inverse<'a>(table: &[u8], n: u32, room: &'a mut [u8]) -> Result<&'a [u8], Refusal> {
    let answer = border::inverse(table, n, room);
    Refusal::unless_success(answer.number)?;
    let length = usize::try_from(answer.value).expect("a table lies within its room");
    Ok(&room[..length])
}

/// The inverse, with a room of its own, as long as the table.
///
/// ```
/// // PAIRS has no sequence: it is its own inverse.
/// assert_eq!(foq::inverse_to_vec(foq::PAIRS, 3)?, foq::PAIRS);
/// # Ok::<(), foq::Refusal>(())
/// ```
///
/// # Errors
/// Those of [`verdict`] but [`Refusal::SHORT_WORKSPACE`].
pub fn inverse_to_vec(table: &[u8], n: u32) -> Result<Vec<u8>, Refusal> {
    let mut room = vec![0; table.len()];
    let length = inverse(table, n, &mut room)?.len();
    room.truncate(length);
    Ok(room)
}

/// The circuit reader.
///
/// ```
/// use foq::{circuit_read, compile_to_vec, Circuit, Refusal, PAIRS};
///
/// let header = Circuit { qubits: 3, ancillas: 3, gates: 9 };
/// assert_eq!(circuit_read(&compile_to_vec(PAIRS, 3)?), Ok(header));
/// assert_eq!(circuit_read(PAIRS), Err(Refusal::NOT_WELL_FORMED));
/// # Ok::<(), foq::Refusal>(())
/// ```
///
/// # Errors
/// [`Refusal::NOT_WELL_FORMED`].
pub fn circuit_read(circuit: &[u8]) -> Result<Circuit, Refusal> {
    let answer = border::circuit_read(circuit);
    Refusal::unless_success(answer.number)?;
    Ok(Circuit {
        qubits: answer.qubits,
        ancillas: answer.ancillas,
        gates: answer.gates,
    })
}

/// The circuit run, from a start word.
///
/// ```
/// // A NOT of wire 2 under wire 1: two qubits, no ancilla, one gate.
/// let circuit = [1, 2, 0, 1, 0, 0, 0, 1, 2, 1, 1];
/// assert_eq!(foq::circuit_run(&circuit, 0b01)?.word(), 0b11);
/// assert_eq!(foq::circuit_run(&circuit, 0b10)?.word(), 0b10);
/// # Ok::<(), foq::Refusal>(())
/// ```
///
/// # Errors
/// [`Refusal::NOT_WELL_FORMED`], then [`Refusal::HIGH_BIT`].
pub fn circuit_run(circuit: &[u8], word: u64) -> Result<Block, Refusal> {
    let answer = border::circuit_run(circuit, word);
    Refusal::unless_success(answer.number)?;
    Ok(Block {
        data: answer.data,
        ancillas: answer.ancillas,
        bits: answer.bits,
    })
}

/// The listing of a circuit is put into the text, whose rest stays as it was; a
/// refusal leaves all of it. Gives the listing within the text. Its first line is
/// n, the ancillas and the size, which is gates, data wires and ancillas
/// together; then each gate has a line. A text of [`MOST_LISTING`] bytes takes
/// every listing, and six times the circuit's length is enough too.
///
/// ```
/// use foq::{circuit_list, compile_to_vec, Refusal, PAIRS};
///
/// let circuit = compile_to_vec(PAIRS, 1)?;
/// let listing = "1 1 5\n1 X 2\n2 X 1 +2\n3 X 2\n";
/// assert_eq!(circuit_list(&circuit, &mut [0; 27])?, listing);
/// let short = &mut [0; 26];
/// assert_eq!(circuit_list(&circuit, short), Err(Refusal::NO_ROOM));
/// assert_eq!(circuit_list(PAIRS, short), Err(Refusal::NOT_WELL_FORMED));
/// # Ok::<(), Refusal>(())
/// ```
///
/// # Errors
/// [`Refusal::NOT_WELL_FORMED`] exactly where [`circuit_read`] refuses, then
/// [`Refusal::NO_ROOM`].
pub fn circuit_list<'a>(circuit: &[u8], text: &'a mut [u8]) -> Result<&'a str, Refusal> {
    let answer = border::circuit_list(circuit, text);
    Refusal::unless_success(answer.number)?;
    let length = usize::try_from(answer.value).expect("a listing lies within its text");
    Ok(str::from_utf8(&text[..length]).expect("a listing is ASCII"))
}

/// The listing of a circuit, with a text of its own, in which every listing has
/// its place.
///
/// ```
/// let circuit = foq::compile_to_vec(foq::PAIRS, 3)?;
/// let listing = foq::circuit_list_to_string(&circuit)?;
/// let mut lines = listing.lines();
/// // Nine gates on three data wires and three ancillas.
/// assert_eq!(lines.next(), Some("3 3 15"));
/// assert_eq!(lines.nth(1), Some("2 X 5 -1 -2 +4"));
/// assert_eq!(lines.count(), 7);
/// # Ok::<(), foq::Refusal>(())
/// ```
///
/// # Errors
/// [`Refusal::NOT_WELL_FORMED`].
pub fn circuit_list_to_string(circuit: &[u8]) -> Result<String, Refusal> {
    let mut text = vec![0; MOST_LISTING];
    Ok(circuit_list(circuit, &mut text)?.to_string())
}

/// One band of a circuit's page, into a text: place 0 asks for the first band,
/// and each band says where the next one begins. A text of [`MOST_BAND`] bytes
/// takes every band; one that is too short for a band is left as it was, and
/// the band's length says how long it must be.
///
/// ```
/// use foq::{page_band, Band, Refusal, MOST_BAND};
///
/// // A NOT of wire 2 under wire 1: two qubits, no ancilla, one gate.
/// let circuit = [1, 2, 0, 1, 0, 0, 0, 1, 2, 1, 1];
/// let mut text = [0; MOST_BAND];
/// let band = page_band(&circuit, 0, &mut text)?;
/// assert_eq!(&text[..band.length], b"   1+---\n   2X---\n");
/// assert_eq!(band.next, 0);
///
/// assert_eq!(page_band(&circuit, 0, &mut [0; 17])?, Band { length: 18, next: 0 });
/// assert_eq!(page_band(&circuit[1..], 0, &mut text), Err(Refusal::NOT_WELL_FORMED));
/// # Ok::<(), Refusal>(())
/// ```
///
/// # Errors
/// [`Refusal::NOT_WELL_FORMED`], at place 0 exactly where [`circuit_read`]
/// refuses; at another place where the gates of a band do not stand there.
pub fn page_band(circuit: &[u8], place: u64, text: &mut [u8]) -> Result<Band, Refusal> {
    let band = border::page_band(circuit, place, text);
    Refusal::unless_success(band.number)?;
    Ok(Band {
        length: usize::try_from(band.length).expect("a band is short"),
        next: band.next,
    })
}

/// The whole page of a circuit, written band by band.
///
/// ```
/// let circuit = foq::compile_to_vec(foq::PAIRS, 1)?;
/// let mut page = Vec::new();
/// foq::write_page(&circuit, &mut page).expect("a vector takes all")?;
/// assert_eq!(page, b"   1----X-------\n   2X---+---X---\n");
/// # Ok::<(), foq::Refusal>(())
/// ```
///
/// # Errors
/// Those of the writer; within, [`Refusal::NOT_WELL_FORMED`] where
/// [`circuit_read`] refuses, before anything is written.
pub fn write_page(circuit: &[u8], out: &mut impl Write) -> io::Result<Result<(), Refusal>> {
    let mut text = [0; MOST_BAND];
    let mut place = 0;
    loop {
        let band = match page_band(circuit, place, &mut text) {
            Ok(band) => band,
            Err(refusal) => return Ok(Err(refusal)),
        };
        out.write_all(&text[..band.length])?;
        if band.next == 0 {
            return Ok(Ok(()));
        }
        place = band.next;
    }
}
