//! The page program: "reads a circuit on standard input and prints its page".

use foq_reference::LONGEST_CIRCUIT;
use std::io::{self, Read, Write};

fn main() -> io::Result<()> {
    // One byte more than a circuit can have is enough to refuse the rest.
    let enough = LONGEST_CIRCUIT as u64 + 1;
    let mut input = Vec::new();
    io::stdin().lock().take(enough).read_to_end(&mut input)?;
    io::stdout().lock().write_all(&foq_reference::page(&input))
}
