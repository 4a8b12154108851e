//! What the documents cite exists: every function, definition, law and edit that `docs/SENTENCES.md` names, and a row in `docs/ARCHITECTURE.md` for
//! every proof file. Every sentence has its code, or words that say why there is none.

use std::collections::{BTreeMap, BTreeSet};
use std::fs;
use std::path::{Path, PathBuf};

fn repository() -> PathBuf {
    Path::new(env!("CARGO_MANIFEST_DIR")).join("../..")
}

fn read(path: impl AsRef<Path>) -> String {
    let path = path.as_ref();
    fs::read_to_string(path).unwrap_or_else(|error| panic!("{}: {error}", path.display()))
}

/// The names of the entries of a folder that end so, without that end; none where there is no such folder.
fn entries(folder: &Path, end: &str) -> BTreeSet<String> {
    let Ok(found) = fs::read_dir(folder) else {
        return BTreeSet::new();
    };
    let names = found.map(|entry| entry.unwrap().file_name().into_string().unwrap());
    names.filter_map(|name| Some(name.strip_suffix(end)?.to_string())).collect()
}

/// What the crates declare, by crate.
struct Sources {
    /// Functions, structs, enums and constants.
    code: BTreeMap<String, BTreeSet<String>>,
    /// Names that a file of `specs` or `proofs` declares, by crate and file.
    antt: BTreeMap<(String, String), BTreeSet<String>>,
    /// Must-fail edits.
    edits: BTreeSet<(String, String)>,
}

/// The word behind `fn`, `struct`, `enum` or `const` wherever they stand.
fn declared_in_code(text: &str) -> impl Iterator<Item = String> + '_ {
    let starts = text.lines().filter(|line| !line.trim_start().starts_with("//"));
    starts.filter_map(|line| {
        let mut words = line.split_whitespace().skip_while(|word| !matches!(*word, "fn" | "struct" | "enum" | "const"));
        words.next()?;
        let name = words.next()?;
        let end = name.find(|letter: char| !letter.is_alphanumeric() && letter != '_').unwrap_or(name.len());
        Some(name[..end].to_string())
    })
}

/// The first word of a line that is no keyword: a declaration, a field, a constructor or a clause.
fn declared_in_antt(text: &str) -> BTreeSet<String> {
    let keywords = ["abbrev", "unfoldable", "pub", "data", "record", "ruleset", "module"];
    let names = text.lines().filter(|line| !line.trim_start().starts_with("--")).filter_map(|line| {
        let name = line.split_whitespace().find(|word| !keywords.contains(word))?;
        Some(name.to_string())
    });
    names.collect()
}

fn sources() -> Sources {
    let mut sources = Sources { code: BTreeMap::new(), antt: BTreeMap::new(), edits: BTreeSet::new() };
    let crates = repository().join("crates");
    for name in entries(&crates, "") {
        let home = crates.join(&name);
        let code = sources.code.entry(name.clone()).or_default();
        for file in entries(&home.join("src"), ".rt") {
            code.extend(declared_in_code(&read(home.join("src").join(file + ".rt"))));
        }
        for part in ["specs", "proofs"] {
            for file in entries(&home.join(part), ".antt") {
                let text = read(home.join(part).join(format!("{file}.antt")));
                sources.antt.entry((name.clone(), file)).or_default().extend(declared_in_antt(&text));
            }
        }
        sources.edits.extend(entries(&home.join("must-fail"), ".edit").into_iter().map(|edit| (name.clone(), edit)));
    }
    sources
}

/// The texts between backticks.
fn cited(text: &str) -> impl Iterator<Item = &str> {
    text.split('`').skip(1).step_by(2)
}

impl Sources {
    fn declares(&self, crates: &[&str], file: &str, name: &str) -> bool {
        crates.iter().any(|of| self.antt.get(&(of.to_string(), file.to_string())).is_some_and(|names| names.contains(name)))
    }

    /// Does what is cited exist? None where its form is none of those that the document explains.
    fn exists(&self, cited: &str) -> Option<bool> {
        if let Some((of, function)) = cited.split_once("::") {
            let name = function.rsplit("::").next().unwrap();
            return Some(self.code.get(of)?.contains(name));
        }
        if let Some((of, rest)) = cited.split_once('/') {
            if !self.code.contains_key(of) {
                return Some(repository().join(cited).exists());
            }
            return Some(match rest.split_once('.') {
                Some((file, name)) => self.declares(&[of], file, name),
                None => self.edits.contains(&(of.to_string(), rest.to_string())),
            });
        }
        let (file, name) = cited.split_once('.')?;
        Some(self.declares(&["model", "agreement"], file, name))
    }
}

/// The rows of the document's tables that quote document 01, each as its cells.
fn sentences(document: &str) -> Vec<Vec<&str>> {
    let rows = document.lines().filter(|line| line.starts_with("| \""));
    rows.map(|line| line.trim_matches('|').split(" | ").map(str::trim).collect()).collect()
}

#[test]
fn what_sentences_cites_exists() {
    let document = read(repository().join("docs/SENTENCES.md"));
    let sources = sources();
    let mut found = 0;
    for row in sentences(&document) {
        for name in row[1..].iter().flat_map(|cell| cited(cell)) {
            match sources.exists(name) {
                Some(exists) => assert!(exists, "docs/SENTENCES.md cites {name}, which is nowhere: {}", row[0]),
                None => continue,
            }
            found += 1;
        }
    }
    assert!(found > 600, "only {found} names found");
}

#[test]
fn every_sentence_has_its_code_or_says_why_not() {
    let document = read(repository().join("docs/SENTENCES.md"));
    let rows = sentences(&document);
    for row in &rows {
        assert!(row.iter().all(|cell| !cell.is_empty()), "an empty cell: {row:?}");
        let said = row[1..].iter().any(|cell| cited(cell).any(|name| name.contains("::")) || cell.starts_with("none") || cell.starts_with("the "));
        assert!(said, "neither code nor why there is none: {row:?}");
    }
    assert!(rows.len() > 110, "only {} sentences", rows.len());
}

#[test]
fn every_proof_file_has_its_row() {
    let document = read(repository().join("docs/ARCHITECTURE.md"));
    let (_, tables) = document.split_once("\n## Proofs, by crate\n").expect("the section");
    let (tables, _) = tables.split_once("\n## ").expect("its end");
    let mut listed = 0;
    let mut sections = BTreeMap::new();
    for section in tables.split("\n### ").skip(1) {
        let of = cited(section).next().unwrap().to_string();
        let rows = section.lines().filter_map(|line| line.strip_prefix("| `"));
        let files: BTreeSet<String> = rows.map(|row| row.split('`').next().unwrap().to_string()).collect();
        listed += files.len();
        sections.insert(of, files);
    }
    for of in entries(&repository().join("crates"), "") {
        let mut files = entries(&repository().join("crates").join(&of).join("proofs"), ".antt");
        files.remove("Lib");
        assert_eq!(sections.remove(&of).unwrap_or_default(), files, "crate {of}");
    }
    assert!(sections.is_empty(), "no such crates: {sections:?}");
    assert!(listed > 80, "only {listed} files");
}

#[test]
fn every_edit_is_cited() {
    let documents = ["docs/SENTENCES.md", "docs/ARCHITECTURE.md"].map(|name| read(repository().join(name))).concat();
    let cited: BTreeSet<&str> = cited(&documents).collect();
    let edits = sources().edits;
    for (of, edit) in &edits {
        assert!(cited.contains(format!("{of}/{edit}").as_str()), "no document says what {of}/{edit} tries");
    }
    assert!(edits.len() > 60, "only {} edits", edits.len());
}

/// S-3 counts the entries of the lookup in the functions that read and write one: no other function reaches them.
#[test]
fn entries_of_the_lookup_are_touched_where_they_are_counted() {
    let code = ["lib.rt", "plan.rt"].map(|name| read(repository().join("crates/lookup/src").join(name))).concat();
    let reaches = |function: &&str| [".wires", ".qubits"].iter().any(|entries| function.contains(entries));
    let touching: Vec<&str> = code.split("fn ").filter(reaches).map(|function| function.split('(').next().unwrap()).collect();
    assert_eq!(touching, ["wire_of", "qubit_on", "keep"]);
}
