//! The second interpreter's answers as C is to see them: a number and, where
//! that is 0, a result; otherwise zeros.

use foq::border;
use foq_reference::{Block, Circuit};

/// The answer of a run or a compile.
pub fn answer(given: Result<u64, u32>) -> border::Answer {
    match given {
        Ok(value) => border::Answer { number: 0, value },
        Err(number) => border::Answer { number, value: 0 },
    }
}

/// The answer where these bytes are written: their length.
pub fn written(given: &Result<Vec<u8>, u32>) -> border::Answer {
    let length = given.as_ref().map(|bytes| bytes.len() as u64);
    answer(length.map_err(|number| *number))
}

/// The answer of a circuit read.
pub fn header(read: &Result<Circuit, u32>) -> border::Circuit {
    match read {
        Ok(circuit) => border::Circuit {
            number: 0,
            qubits: circuit.n.into(),
            ancillas: circuit.ancillas.into(),
            gates: circuit.gates.len() as u32,
        },
        Err(number) => border::Circuit {
            number: *number,
            ..border::Circuit::default()
        },
    }
}

/// The answer of a circuit run.
pub fn block(ran: Result<Block, u32>) -> border::Block {
    match ran {
        Ok(block) => border::Block {
            number: 0,
            data: block.n,
            ancillas: block.ancillas,
            bits: block.wires,
        },
        Err(number) => border::Block {
            number,
            ..border::Block::default()
        },
    }
}
