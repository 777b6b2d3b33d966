//! docs/STATEMENTS.md names what is there: files, names of definitions,
//! theorems and functions, and every must-fail edit once. Read from the sources
//! alone.

use std::collections::{BTreeMap, BTreeSet};
use std::fs;
use std::path::{Path, PathBuf};

fn root() -> PathBuf {
    Path::new(env!("CARGO_MANIFEST_DIR")).join("../..")
}

fn page() -> String {
    fs::read_to_string(root().join("docs/STATEMENTS.md")).unwrap()
}

/// The rows of the page's tables.
fn rows(page: &str) -> impl Iterator<Item = &str> {
    page.lines().filter(|line| line.starts_with('|'))
}

/// The files below `folder`, by their path from there, but not what `rt` makes
/// of a crate in its `out`.
fn files(folder: &Path) -> BTreeSet<String> {
    let (mut found, mut open) = (BTreeSet::new(), vec![folder.to_path_buf()]);
    while let Some(at) = open.pop() {
        for entry in fs::read_dir(&at).unwrap() {
            let path = entry.unwrap().path();
            if path.is_dir() {
                if !path.ends_with("out") {
                    open.push(path);
                }
            } else {
                let below = path.strip_prefix(folder).unwrap();
                found.insert(below.to_str().unwrap().to_string());
            }
        }
    }
    found
}

/// The pieces of a text between characters that no name has.
fn words(text: &str) -> impl Iterator<Item = &str> {
    let parts = |c: char| c.is_whitespace() || "(){}[],.;:@\"«»⌜⌝`|&".contains(c);
    text.split(parts).filter(|word| !word.is_empty())
}

/// Every name of the sources.
fn names() -> BTreeSet<String> {
    let crates = root().join("crates");
    let mut names = BTreeSet::new();
    for file in files(&crates) {
        if file.ends_with(".antt") || file.ends_with(".rt") {
            let text = fs::read_to_string(crates.join(&file)).unwrap();
            names.extend(words(&text).map(str::to_string));
        }
    }
    names
}

/// What a row puts in backticks.
fn quoted(row: &str) -> impl Iterator<Item = &str> {
    row.split('`').skip(1).step_by(2)
}

#[test]
fn every_name_of_its_tables_is_there() {
    let (page, names) = (page(), names());
    let mut looked = 0;
    for row in rows(&page) {
        for name in quoted(row).flat_map(words) {
            assert!(names.contains(name), "no `{name}` in crates/: {row}");
            looked += 1;
        }
    }
    assert!(looked > 600, "{looked}");
}

/// A file named with its crate is there, and one named alone is in the crate
/// that the row named last; a test is there as well.
#[test]
fn every_file_that_it_names_is_there() {
    let (page, there) = (page(), files(&root().join("crates")));
    let is_path = |c: char| c.is_alphanumeric() || "_/.-".contains(c);
    let mut looked = 0;
    for row in page.lines() {
        let mut in_crate = None;
        for path in row.split(|c| !is_path(c)) {
            let path = path.trim_end_matches('.');
            if path.starts_with("tests/") || path.starts_with("docs/") {
                assert!(root().join(path).exists(), "no {path}");
                looked += 1;
            } else if path.ends_with(".antt") || path.ends_with("/src/lib.rt") {
                let whole = match path.split_once('/') {
                    Some((name, _)) => {
                        in_crate = Some(name);
                        path.to_string()
                    }
                    None => format!("{}/specs/{path}", in_crate.expect(row)),
                };
                assert!(there.contains(&whole), "no {whole}: {row}");
                looked += 1;
            }
        }
    }
    assert!(looked > 250, "{looked}");
}

#[test]
fn every_wrong_program_is_listed_once() {
    let page = page();
    let (_, section) = page
        .split_once("\n## Wrong programs that are refused\n")
        .unwrap();
    let mut listed = BTreeMap::new();
    for row in rows(section) {
        let edit = row.trim_end_matches('|').rsplit('|').next().unwrap().trim();
        if edit.contains('/') {
            *listed.entry(edit.to_string()).or_insert(0) += 1;
        }
    }
    let there = files(&root().join("crates"))
        .into_iter()
        .filter_map(|file| {
            let (in_crate, edit) = file.strip_suffix(".edit")?.split_once("/must-fail/")?;
            Some((format!("{in_crate}/{edit}"), 1))
        });
    assert_eq!(listed, there.collect());
}
