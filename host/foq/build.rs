//! Links `target/staticlib/libfoq.a` of the repository.

use std::path::PathBuf;
use std::process::ExitCode;

fn main() -> ExitCode {
    let folder = PathBuf::from(env!("CARGO_MANIFEST_DIR")).join("../../target/staticlib");
    let archive = folder.join("libfoq.a");
    println!("cargo:rerun-if-changed={}", archive.display());
    if !archive.is_file() {
        eprintln!(
            "target/staticlib/libfoq.a is missing: run `tools/archive` in the repository first"
        );
        return ExitCode::FAILURE;
    }
    println!("cargo:rustc-link-search=native={}", folder.display());
    println!("cargo:rustc-link-lib=static=foq");
    ExitCode::SUCCESS
}
