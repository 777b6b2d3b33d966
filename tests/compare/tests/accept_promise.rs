//! The 9/7 crates take of the crate of the judge what docs/DECISIONS.md says
//! under "The accept promise", and nothing else. Read from the sources alone.

use std::collections::BTreeSet;
use std::fs;
use std::path::{Path, PathBuf};

/// Names, each with the file of definitions or laws that has it, or with `src`
/// where it is a function.
type Names = BTreeSet<(String, String)>;

fn root() -> PathBuf {
    Path::new(env!("CARGO_MANIFEST_DIR")).join("../..")
}

/// The names in backticks between "exactly this:" and the next full stop of the
/// page's section; a file's name follows those that it has.
fn named(page: &str) -> Names {
    let section = page.split_once("\n## The accept promise\n").unwrap().1;
    let list = section.split_once("exactly this:").unwrap().1;
    let list = list.split_once(". ").unwrap().0;
    let (mut all, mut open) = (Names::new(), Vec::new());
    for (at, part) in list.split('`').enumerate() {
        if at % 2 == 1 {
            open.push(part.to_string());
        } else if let Some((before, _)) = part.split_once(".antt") {
            let file = before.rsplit(|c: char| !c.is_alphanumeric()).next();
            let file = file.unwrap().to_string();
            all.extend(open.drain(..).map(|name| (file.clone(), name)));
        }
    }
    all.extend(open.drain(..).map(|name| ("src".to_string(), name)));
    all
}

/// What one file takes of the crate of the judge: imports by name, and functions
/// called by their path. Any other way is an error.
fn taken(text: &str) -> Result<Names, String> {
    let mut all = Names::new();
    for line in text.lines() {
        let line = line.split("--").next().unwrap();
        let line = line.split("//").next().unwrap().trim();
        if line.contains("Rattle.precision") {
            let import = line.strip_prefix("ghost ").unwrap_or(line);
            let names = import
                .trim_end_matches(';')
                .strip_prefix("use Rattle.precision.specs.")
                .and_then(|rest| rest.strip_suffix('}'))
                .and_then(|rest| rest.split_once(".{"));
            let (file, names) = names.ok_or(line)?;
            for name in names.split(',') {
                all.insert((file.to_string(), name.trim().to_string()));
            }
            continue;
        }
        let is_name = |c: char| c.is_alphanumeric() || c == '_';
        for (at, _) in line.match_indices("precision") {
            let rest = &line[at + "precision".len()..];
            if line[..at].ends_with(is_name) || rest.starts_with(is_name) {
                continue;
            }
            // A path to one function; no import of the crate, of all of it, or
            // under another name.
            let name = rest.strip_prefix("::").ok_or(line)?;
            let name: String = name.chars().take_while(|&c| is_name(c)).collect();
            if name.is_empty() || line.contains(" as ") {
                return Err(line.to_string());
            }
            all.insert(("src".to_string(), name));
        }
    }
    Ok(all)
}

/// Every file of definitions, laws, proofs and code under a folder.
fn sources(folder: &Path) -> Vec<PathBuf> {
    let mut all = Vec::new();
    for entry in fs::read_dir(folder).unwrap() {
        let path = entry.unwrap().path();
        if path.is_dir() {
            all.extend(sources(&path));
        } else if path.extension().is_some_and(|e| e == "antt" || e == "rt") {
            all.push(path);
        }
    }
    all
}

#[test]
fn the_page_names_what_is_taken_of_the_judge() {
    let page = fs::read_to_string(root().join("docs/DECISIONS.md")).unwrap();
    let mut all = Names::new();
    let mut files = Vec::new();
    for name in ["fixed_stages", "irreversible"] {
        for part in ["specs", "proofs", "src"] {
            let folder = root().join("crates").join(name).join(part);
            files.extend(sources(&folder));
        }
    }
    assert!(files.len() > 50, "{}", files.len());
    for file in files {
        let text = fs::read_to_string(&file).unwrap();
        match taken(&text) {
            Ok(names) => all.extend(names),
            Err(line) => panic!("{}: {line}", file.display()),
        }
    }
    assert_eq!(all, named(&page));
}

/// The two readers on texts whose answers are plain.
#[test]
fn the_readers_themselves() {
    let names = |pairs: &[(&str, &str)]| -> Names {
        let own = |&(file, name): &(&str, &str)| (file.to_string(), name.to_string());
        pairs.iter().map(own).collect()
    };
    let due = names(&[("A", "x"), ("A", "y"), ("B", "z"), ("src", "f")]);
    let page = "\n## The accept promise\n\nIt takes exactly this: two (`x`, `y`: A.antt), the law `z` (B.antt), and `f`. Not `w`.";
    assert_eq!(named(page), due);
    let text = "use Rattle.precision.specs.A.{x, y}\nghost use Rattle.precision.specs.B.{z};\nmatch precision::f(t) {\n-- the precision\nuse Rattle.view_precision.specs.C";
    assert_eq!(taken(text), Ok(due));
    for line in [
        "use Rattle.precision.specs.A",
        "use Rattle.precision.specs.A as B",
        "x = Rattle.precision.specs.A.x",
        "use precision::*;",
        "use precision::f as g;",
        "use precision;",
    ] {
        assert_eq!(taken(line), Err(line.to_string()));
    }
}
