//! Compares the product with the second interpreter for so many seconds, from a
//! seed:
//!
//!     $ fuzz 60 1
//!     seed 1, 60 seconds, .. classes of answers:
//!     .. tables, of which .. were inverted, .. gave a circuit and .. were listed;
//!     .. of them with two procedures at one length, .. not in the order called;
//!     .. circuits; .. pages, and as many listings of circuits
//!     no mismatch
//!
//! On a mismatch it prints the input, made as small as it went, and what
//! differs, and ends with status 1.

use foq_fuzz::operations::Product;
use foq_fuzz::{fuzz, Mismatch, Tried};
use std::process::ExitCode;
use std::time::{Duration, Instant};

/// The seconds and the seed.
fn arguments() -> Option<(u64, u64)> {
    let mut arguments = std::env::args().skip(1).map(|text| text.parse().ok());
    let (seconds, seed) = (arguments.next()??, arguments.next()??);
    arguments.next().is_none().then_some((seconds, seed))
}

fn main() -> ExitCode {
    let Some((seconds, seed)) = arguments() else {
        eprintln!("usage: fuzz SECONDS SEED");
        return ExitCode::from(2);
    };
    let product = Product::of_the_repository();
    if !product.lists() {
        println!("target/bin/listing is not built: no table is listed");
    }
    let end = Instant::now() + Duration::from_secs(seconds);
    let (tried, mismatch) = fuzz(&product, seed, |_| Instant::now() < end);
    println!(
        "seed {seed}, {seconds} seconds, {} classes of answers:",
        tried.classes
    );
    print_counts(&tried);
    let Some(Mismatch { input, difference }) = mismatch else {
        println!("no mismatch");
        return ExitCode::SUCCESS;
    };
    println!("mismatch: {input}\n{difference}");
    ExitCode::FAILURE
}

fn print_counts(tried: &Tried) {
    let Tried {
        tables,
        inverted,
        compiled,
        meeting,
        reordered,
        circuits,
        listed,
        drawn,
        ..
    } = tried;
    print!("{tables} tables, of which {inverted} were inverted, ");
    println!("{compiled} gave a circuit and {listed} were listed;");
    print!("{meeting} of them with two procedures at one length, ");
    println!("{reordered} not in the order called;");
    println!("{circuits} circuits; {drawn} pages, and as many listings of circuits");
}
