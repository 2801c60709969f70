//! docs/PROMISES.md names definitions, laws, functions, wrong programs and tests: each of them is there.
//!
//! A cell is a list of references, apart by "; ": what is named before a colon, or a folder and a slash, then names, apart by
//! commas; text in brackets is a remark. A cell whose first word is none of the repository's is prose.

use std::fs;
use std::path::{Path, PathBuf};

const PROMISES: &str = include_str!("../../../docs/PROMISES.md");

fn root() -> PathBuf {
    Path::new(env!("CARGO_MANIFEST_DIR"))
        .parent()
        .expect("the peer stands in the repository")
        .into()
}

fn read(path: PathBuf) -> Option<String> {
    fs::read_to_string(path).ok()
}

/// All files of a crate's src/, one after the other.
fn sources(folder: &Path) -> String {
    let files = fs::read_dir(folder.join("src")).into_iter().flatten().flatten();
    files.filter_map(|file| read(file.path())).collect()
}

/// A cell without its remarks in brackets.
fn without_remarks(cell: &str) -> String {
    let mut depth = 0;
    let kept = |character: char| {
        match character {
            '(' => depth += 1,
            ')' => depth -= 1,
            _ => return (depth == 0).then_some(character),
        }
        None
    };
    cell.chars().filter_map(kept).collect()
}

/// Whether a theory file declares the name: a definition, a law, a data type, a record, a field or a constructor.
fn declares(text: &str, name: &str) -> bool {
    text.lines().any(|line| {
        let line =
            line.trim_start().trim_start_matches("abbrev ").trim_start_matches("unfoldable ");
        let line = line
            .trim_start_matches("pub ")
            .trim_start_matches("record ")
            .trim_start_matches("data ");
        line.strip_prefix(name).is_some_and(|rest| {
            rest.starts_with(" :") || rest.starts_with(" (") || rest.starts_with(" {")
        })
    })
}

/// What is wrong with the names that stand behind `place: ` or `place/`, if anything.
fn missing(place: &str, names: &str) -> Vec<String> {
    let crates = root().join("crates");
    let parts: Vec<&str> = place.split('/').collect();
    let found: Box<dyn Fn(&str) -> bool> = match parts[..] {
        ["peer", file] => {
            let text = read(root().join(format!("peer/tests/peer/{file}.rs"))).unwrap_or_default();
            Box::new(move |name| text.contains(&format!("fn {name}(")))
        }
        [folder] => {
            let text = sources(&crates.join(folder));
            Box::new(move |name| {
                ["fn", "struct", "enum", "const"].iter().any(|item| {
                    text.contains(&format!("{item} {name}("))
                        || text.contains(&format!("{item} {name} "))
                        || text.contains(&format!("{item} {name}:"))
                        || text.contains(&format!("{item} {name}<"))
                })
            })
        }
        [folder, file] => {
            let text =
                read(crates.join(folder).join(format!("specs/{file}.antt"))).unwrap_or_default();
            Box::new(move |name| declares(&text, name))
        }
        [folder, "proofs", file] => {
            let text =
                read(crates.join(folder).join(format!("proofs/{file}.antt"))).unwrap_or_default();
            Box::new(move |name| declares(&text, name))
        }
        _ => Box::new(|_| false),
    };
    let names = names.split(',').map(str::trim).filter(|name| !name.is_empty());
    names.filter(|name| !found(name)).map(|name| format!("{place}: {name}")).collect()
}

/// The wrong programs that are named behind `crate/`, and are not there.
fn missing_edits(folder: &str, names: &str) -> Vec<String> {
    let edits = root().join("crates").join(folder).join("must-fail");
    let names = names.split(',').map(str::trim);
    names
        .filter(|name| !edits.join(format!("{name}.edit")).is_file())
        .map(|name| format!("{folder}/{name}"))
        .collect()
}

/// Whether a word is a crate of the repository, or the second player.
fn is_place(word: &str) -> bool {
    word == "peer" || (!word.is_empty() && root().join("crates").join(word).is_dir())
}

fn faults_of(reference: &str) -> Option<Vec<String>> {
    let reference = reference.trim();
    let head = reference.split([':', '/', ' ']).next().unwrap_or_default();
    if !is_place(head) {
        return None;
    }
    if let Some((place, names)) = reference.split_once(": ") {
        return Some(missing(place, names));
    }
    let (folder, names) = reference.split_once('/')?;
    let is_file =
        names.starts_with(|first: char| first.is_ascii_uppercase()) || names.starts_with("proofs/");
    let path = root().join("crates").join(folder);
    match names.strip_prefix("proofs/") {
        Some(file) => Some(missing_file(path.join(format!("proofs/{file}.antt")))),
        None if is_file => Some(missing_file(path.join(format!("specs/{names}.antt")))),
        None => Some(missing_edits(folder, names)),
    }
}

fn missing_file(path: PathBuf) -> Vec<String> {
    if path.is_file() {
        Vec::new()
    } else {
        vec![path.display().to_string()]
    }
}

#[test]
fn every_name_is_there() {
    let rows = PROMISES.lines().filter(|line| line.starts_with("| "));
    let cells =
        rows.flat_map(|row| row.split('|').skip(2).map(without_remarks).collect::<Vec<_>>());
    let references: Vec<String> =
        cells.flat_map(|cell| cell.split("; ").map(str::to_owned).collect::<Vec<_>>()).collect();
    let judged: Vec<Vec<String>> =
        references.iter().filter_map(|reference| faults_of(reference)).collect();
    assert!(judged.len() > 300, "only {} references were found", judged.len());
    let faults: Vec<String> = judged.into_iter().flatten().collect();
    assert!(faults.is_empty(), "not there: {faults:#?}");
}
