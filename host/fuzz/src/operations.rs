//! The product's side of the comparison.

use foq::border::{self, Answer, Band, Block, Circuit};
use std::io::Write;
use std::path::PathBuf;
use std::process::{Command, Stdio};

/// The nine operations, as C sees them. A test that plants a fault changes one.
pub trait Operations {
    /// The verdict on a table.
    fn verdict(&self, table: &[u8], n: u32, workspace: &mut [u8]) -> u32 {
        border::verdict(table, n, workspace)
    }

    /// The run of a table.
    fn run(&self, table: &[u8], n: u32, word: u64, workspace: &mut [u8]) -> Answer {
        border::run(table, n, word, workspace)
    }

    /// The circuit of a table, into the room.
    fn compile(&self, table: &[u8], n: u32, room: &mut [u8], workspace: &mut [u8]) -> Answer {
        border::compile(table, n, room, workspace)
    }

    /// The inverse of a table, into the room.
    fn inverse(&self, table: &[u8], n: u32, room: &mut [u8]) -> Answer {
        border::inverse(table, n, room)
    }

    /// The circuit reader.
    fn circuit_read(&self, circuit: &[u8]) -> Circuit {
        border::circuit_read(circuit)
    }

    /// The circuit run.
    fn circuit_run(&self, circuit: &[u8], word: u64) -> Block {
        border::circuit_run(circuit, word)
    }

    /// The listing of a circuit, into the text.
    fn circuit_list(&self, circuit: &[u8], text: &mut [u8]) -> Answer {
        border::circuit_list(circuit, text)
    }

    /// One band of a circuit's page, into the text.
    fn page_band(&self, circuit: &[u8], place: u64, text: &mut [u8]) -> Band {
        border::page_band(circuit, place, text)
    }

    /// What the listing program prints, where there is one.
    fn listing(&self, _input: &[u8]) -> Option<Vec<u8>> {
        None
    }
}

/// The archive, and the listing program where it is built.
pub struct Product {
    listing: Option<PathBuf>,
}

impl Product {
    /// As they stand under `target` of the repository.
    #[must_use]
    pub fn of_the_repository() -> Product {
        let folder = PathBuf::from(env!("CARGO_MANIFEST_DIR")).join("../../target/bin");
        let listing = Some(folder.join("listing"));
        Product {
            listing: listing.filter(|program| program.is_file()),
        }
    }

    /// Whether there is a listing program.
    #[must_use]
    pub fn lists(&self) -> bool {
        self.listing.is_some()
    }
}

impl Operations for Product {
    fn listing(&self, input: &[u8]) -> Option<Vec<u8>> {
        let mut child = Command::new(self.listing.as_ref()?)
            .stdin(Stdio::piped())
            .stdout(Stdio::piped())
            .spawn()
            .expect("the listing program starts");
        let mut pipe = child.stdin.take().expect("it has a pipe");
        // The input fits a pipe, whether or not the program reads all of it.
        let _ = pipe.write_all(input);
        drop(pipe);
        let output = child.wait_with_output().expect("the listing program ends");
        Some(output.stdout)
    }
}
