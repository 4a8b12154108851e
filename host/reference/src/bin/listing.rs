//! The listing program: "reads the byte n and then a table on standard input".

use std::io::{self, Read, Write};

fn main() -> io::Result<()> {
    let mut input = Vec::new();
    io::stdin().lock().read_to_end(&mut input)?;
    io::stdout()
        .lock()
        .write_all(&foq_reference::listing(&input))
}
