//! What `make -C host package` packs is enough for a C program, wherever the
//! folder is moved.

mod programs;

use programs::{compile, example, printed, repository, scratch, C11, HEADER};
use std::collections::HashMap;
use std::fs;
use std::io::ErrorKind;
use std::path::{Path, PathBuf};
use std::process::Command;

/// Packs, and moves the folder to this place.
fn packed_to(moved: &Path) {
    let folder = scratch("packed");
    for old in [&folder, moved] {
        if old.exists() {
            fs::remove_dir_all(old).unwrap();
        }
    }
    let status = Command::new("make")
        .arg("--directory")
        .arg(repository("host"))
        .args(["package", &format!("PACKAGE={}", folder.display())])
        .status();
    assert!(status.unwrap().success());
    fs::rename(folder, moved).unwrap();
}

/// Every file of a folder, by its path within.
fn files(folder: &Path) -> Vec<PathBuf> {
    let mut files = Vec::new();
    for entry in fs::read_dir(folder).unwrap() {
        let path = entry.unwrap().path();
        if path.is_dir() {
            files.extend(self::files(&path));
        } else {
            files.push(path);
        }
    }
    files.sort_unstable();
    files
}

/// The flags that a pkg-config file gives: its variables put in their places,
/// `pcfiledir` being its own folder.
fn read_flags(file: &Path) -> Vec<String> {
    let text = fs::read_to_string(file).unwrap();
    let folder = file.parent().unwrap().display().to_string();
    let mut variables = HashMap::from([("pcfiledir", folder)]);
    let mut flags = Vec::new();
    for line in text.lines() {
        let in_place = |value: &str, variables: &HashMap<&str, String>| {
            let mut value = value.to_string();
            for (name, with) in variables {
                value = value.replace(&format!("${{{name}}}"), with);
            }
            value
        };
        if let Some((name, value)) = line.split_once('=') {
            let value = in_place(value, &variables);
            variables.insert(name, value);
        } else if let Some((name, value)) = line.split_once(": ") {
            let value = in_place(value, &variables);
            if ["Cflags", "Libs"].contains(&name) {
                flags.extend(value.split(' ').map(str::to_string));
            }
        }
    }
    flags
}

/// The flags that pkg-config gives, where it is installed.
fn asked_flags(folder: &Path) -> Option<Vec<String>> {
    let asked = Command::new("pkg-config")
        .env("PKG_CONFIG_PATH", folder)
        .args(["--cflags", "--libs", "foq"])
        .output();
    let output = match asked {
        Err(error) if error.kind() == ErrorKind::NotFound => return None,
        asked => asked.unwrap(),
    };
    assert!(output.status.success());
    let flags = String::from_utf8(output.stdout).unwrap();
    Some(flags.split_whitespace().map(str::to_string).collect())
}

#[test]
fn a_program_is_built_against_the_package() {
    let moved = scratch("moved");
    packed_to(&moved);
    let header = moved.join("include/foq.h");
    let archive = moved.join("lib/libfoq.a");
    let config = moved.join("lib/pkgconfig/foq.pc");
    assert_eq!(
        files(&moved),
        [&header, &archive, &config].map(PathBuf::clone)
    );
    assert_eq!(fs::read_to_string(&header).unwrap(), HEADER);
    let flags = read_flags(&config);
    let asked = asked_flags(config.parent().unwrap());
    assert!(asked.is_none_or(|asked| asked == flags), "{flags:?}");
    let source = example("packed-example.c");
    let program = compile(&source, C11, "packed-example", &flags);
    assert_eq!(printed(&program, &[], &[]), b"7 and 7\n");
    let version = format!("Version: {}\n", env!("CARGO_PKG_VERSION"));
    assert!(fs::read_to_string(&config).unwrap().contains(&version));
}
