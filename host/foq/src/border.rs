//! The functions of `libfoq.a` over the structs that C sees, as `foq.h`
//! declares them: a number and, where that is 0, a result; otherwise zeros.

#![allow(unsafe_code)]

/// The length of a block in bytes.
pub const BLOCK_LENGTH: usize = 32;

/// The length of the longest circuit in bytes: a room that is always enough.
pub const MOST_CIRCUIT: usize = 65_536;

/// The length of the longest band of a page in bytes: a text that is always
/// enough.
pub const MOST_BAND: usize = 20_655;

/// Six bytes for each byte of the longest circuit: a text that is always long
/// enough for a listing.
pub const MOST_LISTING: usize = 393_216;

/// The shortest workspace that is enough.
pub const LEAST_WORKSPACE: usize = 32_768;

/// `foq_answer`.
#[repr(C)]
#[derive(Clone, Copy, Debug, Default, PartialEq, Eq)]
pub struct Answer {
    /// 0 or a refusal's number.
    pub number: u32,
    /// The end word, or the length of a circuit, of an inverse table or of a
    /// listing.
    pub value: u64,
}

/// `foq_circuit`.
#[repr(C)]
#[derive(Clone, Copy, Debug, Default, PartialEq, Eq)]
pub struct Circuit {
    /// 0 or a refusal's number.
    pub number: u32,
    /// The number of data wires.
    pub qubits: u32,
    /// The ancilla byte.
    pub ancillas: u32,
    /// The number of gates.
    pub gates: u32,
}

/// `foq_block`.
#[repr(C)]
#[derive(Clone, Copy, Debug, Default, PartialEq, Eq)]
pub struct Block {
    /// 0 or a refusal's number.
    pub number: u32,
    /// The number of data wires.
    pub data: u8,
    /// The number of ancillas.
    pub ancillas: u8,
    /// The wires' bits.
    pub bits: [u8; BLOCK_LENGTH],
}

/// `foq_band`.
#[repr(C)]
#[derive(Clone, Copy, Debug, Default, PartialEq, Eq)]
pub struct Band {
    /// 0 or a refusal's number.
    pub number: u32,
    /// The band's length in bytes.
    pub length: u64,
    /// The place where the next band begins; 0 behind the last one.
    pub next: u64,
}

/// As `foq.h` declares them.
mod declared {
    use super::{Answer, Band, Block, Circuit};

    extern "C" {
        pub fn foq_verdict(
            table: *const u8,
            length: usize,
            n: u32,
            workspace: *mut u8,
            workspace_length: usize,
        ) -> u32;
        pub fn foq_run(
            table: *const u8,
            length: usize,
            n: u32,
            word: u64,
            workspace: *mut u8,
            workspace_length: usize,
        ) -> Answer;
        pub fn foq_compile(
            table: *const u8,
            length: usize,
            n: u32,
            room: *mut u8,
            room_length: usize,
            workspace: *mut u8,
            workspace_length: usize,
        ) -> Answer;
        pub fn foq_inverse(
            table: *const u8,
            length: usize,
            n: u32,
            room: *mut u8,
            room_length: usize,
        ) -> Answer;
        pub fn foq_circuit_read(circuit: *const u8, length: usize) -> Circuit;
        pub fn foq_circuit_run(circuit: *const u8, length: usize, word: u64) -> Block;
        pub fn foq_circuit_list(
            circuit: *const u8,
            length: usize,
            text: *mut u8,
            text_length: usize,
        ) -> Answer;
        pub fn foq_page_band(
            circuit: *const u8,
            length: usize,
            place: u64,
            text: *mut u8,
            text_length: usize,
        ) -> Band;
    }
}

// Why each call below is sound: a Rust slice is a range that `foq.h` asks for,
// readable for the call and unchanged meanwhile; two slices of one call never
// overlap where one of them is written; the structs above are laid out as C
// lays out those of `foq.h`; the functions keep no pointer, and return.

/// The verdict on a table, on n qubits. The workspace is zero afterwards.
#[must_use]
pub fn verdict(table: &[u8], n: u32, workspace: &mut [u8]) -> u32 {
    // SAFETY: as above; the table is only read.
    unsafe {
        declared::foq_verdict(
            table.as_ptr(),
            table.len(),
            n,
            workspace.as_mut_ptr(),
            workspace.len(),
        )
    }
}

/// The run of a table on n qubits, from a start word. The workspace is zero
/// afterwards.
#[must_use]
pub fn run(table: &[u8], n: u32, word: u64, workspace: &mut [u8]) -> Answer {
    // SAFETY: as above; the table is only read.
    unsafe {
        declared::foq_run(
            table.as_ptr(),
            table.len(),
            n,
            word,
            workspace.as_mut_ptr(),
            workspace.len(),
        )
    }
}

/// The circuit of a table on n qubits, into the room. The workspace is zero
/// afterwards.
#[must_use]
pub fn compile(table: &[u8], n: u32, room: &mut [u8], workspace: &mut [u8]) -> Answer {
    // SAFETY: as above; the table is only read.
    unsafe {
        declared::foq_compile(
            table.as_ptr(),
            table.len(),
            n,
            room.as_mut_ptr(),
            room.len(),
            workspace.as_mut_ptr(),
            workspace.len(),
        )
    }
}

/// The inverse of a table on n qubits, into the room.
#[must_use]
pub fn inverse(table: &[u8], n: u32, room: &mut [u8]) -> Answer {
    // SAFETY: as above; the table is only read.
    unsafe {
        declared::foq_inverse(
            table.as_ptr(),
            table.len(),
            n,
            room.as_mut_ptr(),
            room.len(),
        )
    }
}

/// The circuit reader.
#[must_use]
pub fn circuit_read(circuit: &[u8]) -> Circuit {
    // SAFETY: as above; the circuit is only read.
    unsafe { declared::foq_circuit_read(circuit.as_ptr(), circuit.len()) }
}

/// The circuit run, from a start word.
#[must_use]
pub fn circuit_run(circuit: &[u8], word: u64) -> Block {
    // SAFETY: as above; the circuit is only read.
    unsafe { declared::foq_circuit_run(circuit.as_ptr(), circuit.len(), word) }
}

/// The listing of a circuit, into the text.
#[must_use]
pub fn circuit_list(circuit: &[u8], text: &mut [u8]) -> Answer {
    // SAFETY: as above; the circuit is only read.
    unsafe {
        declared::foq_circuit_list(
            circuit.as_ptr(),
            circuit.len(),
            text.as_mut_ptr(),
            text.len(),
        )
    }
}

/// One band of a circuit's page, into the text: the first for place 0.
#[must_use]
pub fn page_band(circuit: &[u8], place: u64, text: &mut [u8]) -> Band {
    // SAFETY: as above; the circuit is only read.
    unsafe {
        declared::foq_page_band(
            circuit.as_ptr(),
            circuit.len(),
            place,
            text.as_mut_ptr(),
            text.len(),
        )
    }
}
