//! The numbers of "Refusals from the input" and "Refusals from the state", and
//! of document 02's answers.
//!
//! "Success is number 0"; a refusal is one of the numbers below.

/// "1 the table stops too soon".
pub const STOPS_TOO_SOON: u32 = 1;
/// "2 edition".
pub const EDITION: u32 = 2;
/// "3 p over 16".
pub const PROCEDURES: u32 = 3;
/// "4 kind unknown, or condition and statement exchanged".
pub const KIND: u32 = 4;
/// "5 map".
pub const MAP: u32 = 5;
/// "6 removal count, base or procedure byte".
pub const FIELD: u32 = 6;
/// "7 too deep, or a 256th record".
pub const DEPTH_OR_RECORDS: u32 = 7;
/// "8 bytes left over".
pub const BYTES_LEFT: u32 = 8;
/// "9 n not 1 to 32".
pub const QUBITS: u32 = 9;
/// "10 recursive call without removal".
pub const NO_REMOVAL: u32 = 10;
/// "11 width over 1".
pub const WIDTH: u32 = 11;
/// "12 access fault".
pub const FAULT: u32 = 12;
/// "13 a start word with a bit at n or above".
pub const START_WORD: u32 = 13;
/// "14 circuit not well formed".
pub const CIRCUIT: u32 = 14;
/// "21 workspace shorter than 32,768 bytes".
pub const WORKSPACE: u32 = 21;
/// "22 a wire number above 255 would be taken".
pub const WIRE: u32 = 22;
/// "23 header or next gate would pass the room's end".
pub const ROOM: u32 = 23;
/// Document 02, S-5: "24, the table's room is shorter than the source table".
pub const TABLE_ROOM: u32 = 24;
