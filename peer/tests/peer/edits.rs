//! The wrong programs, crates/NAME/must-fail/*.edit: each finds the text that it changes, which a gate tells only after its
//! proofs, and docs/PROMISES.md names each.

use std::collections::BTreeMap;
use std::fs;
use std::path::{Path, PathBuf};

const PROMISES: &str = include_str!("../../../docs/PROMISES.md");

/// The files right inside a folder, or none where there is no such folder.
fn files(folder: &Path) -> Vec<PathBuf> {
    let entries = fs::read_dir(folder).into_iter().flatten().flatten();
    entries.map(|entry| entry.path()).collect()
}

/// Every edit, with its crate's folder.
fn edits() -> Vec<(PathBuf, PathBuf)> {
    let crates = Path::new(concat!(env!("CARGO_MANIFEST_DIR"), "/../crates"));
    let of = |folder: PathBuf| {
        let edits = files(&folder.join("must-fail"));
        edits.into_iter().map(move |edit| (folder.clone(), edit))
    };
    files(crates).into_iter().flat_map(of).collect()
}

/// Makes the replacements of an edit, one behind the other: each `old:` text stands once in the file of the line `file:` before
/// it, which is a program or a definition.
fn apply(edit: &str, read: impl Fn(&str) -> Option<String>) -> Result<usize, String> {
    let mut texts: BTreeMap<&str, String> = BTreeMap::new();
    let (mut file, mut old, mut pairs) = ("", "", 0);
    for line in edit.lines() {
        if let Some(name) = line.strip_prefix("file: ") {
            let text =
                read(name).filter(|_| name.starts_with("src/") || name.starts_with("specs/"));
            texts
                .entry(name)
                .or_insert(text.ok_or_else(|| format!("no program and no definition: {name}"))?);
            file = name;
        } else if let Some(text) = line.strip_prefix("old: ") {
            old = text;
        } else if let Some(new) = line.strip_prefix("new:") {
            let text = texts.get_mut(file).ok_or("no line \"file:\"")?;
            match text.matches(old).count() {
                1 if !old.is_empty() => {
                    *text = text.replacen(old, new.strip_prefix(' ').unwrap_or(new), 1)
                }
                count => return Err(format!("{count} times in {file}: {old}")),
            }
            (old, pairs) = ("", pairs + 1);
        }
    }
    Ok(pairs)
}

#[test]
fn every_edit_fits() {
    let edits = edits();
    assert!(edits.len() > 200, "only {} were found", edits.len());
    let faults: Vec<String> = edits
        .iter()
        .filter_map(|(folder, edit)| {
            let text = fs::read_to_string(edit).expect("an edit");
            let read = |name: &str| fs::read_to_string(folder.join(name)).ok();
            let fault = match apply(&text, read) {
                Ok(0) => Some("no replacement".to_owned()),
                applied => applied.err(),
            };
            fault.map(|fault| format!("{}: {fault}", edit.display()))
        })
        .collect();
    assert!(faults.is_empty(), "{faults:#?}");
}

/// An edit that does not fit is told.
#[test]
fn edits_that_do_not_fit() {
    let read = |name: &str| name.ends_with("lib.rt").then(|| "one two two\n".to_owned());
    let fits = |edit: &str| apply(edit, read);
    assert_eq!(
        fits("# why\nfile: src/lib.rt\nold: one\nnew: two three\nold: three\nnew:\n"),
        Ok(2)
    );
    for wrong in [
        "file: src/lib.rt\nold: three\nnew: one",
        "file: src/lib.rt\nold: two\nnew: one",
        "file: src/lib.rt\nnew: one",
        "file: src/other.rs\nold: one\nnew: two",
        "file: proofs/lib.rt\nold: one\nnew: two",
        "old: one\nnew: two",
    ] {
        assert!(fits(wrong).is_err(), "{wrong}");
    }
    assert_eq!(fits("file: src/lib.rt\n"), Ok(0));
}

#[test]
fn every_edit_is_named() {
    let name = |edit: &PathBuf| edit.file_stem().expect("a name").to_string_lossy().into_owned();
    let names = |name: &String| {
        PROMISES.split(|c: char| !c.is_alphanumeric() && c != '_').any(|word| word == name)
    };
    let missing: Vec<String> =
        edits().iter().map(|(_, edit)| name(edit)).filter(|own| !names(own)).collect();
    assert!(missing.is_empty(), "not in docs/PROMISES.md: {missing:#?}");
}
